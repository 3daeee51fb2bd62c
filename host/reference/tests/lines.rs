//! Document 01's cases "On both sides of the line", with positions, and model A's printed run.

mod common;

use common::{number, P1};
use jirvuntsag_packing::{model_a, pack, ActionSpec, ChunkSpec, ModelSpec, RuleSpec, TestSpec};
use jirvuntsag_reference::{open, print, refresh, run, table_len, trace, Event, Kind, Model, Refusal, State};

const MODEL_A_OUTPUT: &str = "\
50 fire 0
150 wait 100
200 fire 1
300 wait 100
350 fire 1
400 fire 2
550 wait 150
end 9 7
";

/// Model A opened: image, state, table.
fn opened_a() -> (Vec<u8>, State, Vec<u16>) {
    let image = pack(&model_a());
    let mut table = vec![7; table_len(&image).2];
    let (number, at, state) = open(&image, &mut table);
    assert_eq!((number, at), (0, 0));
    (image, state, table)
}

/// One buffer and a rule that clears it whenever it is empty, so that it always fires.
fn always_fires() -> Vec<u8> {
    let rule =
        RuleSpec { tests: vec![TestSpec::new(0, 0, &[])], actions: vec![ActionSpec::clear(0)], ..RuleSpec::default() };
    pack(&ModelSpec { opening: vec![ChunkSpec::nil(); 2], rules: vec![rule], ..ModelSpec::default() })
}

#[test]
fn p1_to_p5_opening() {
    assert_eq!(open(&P1, &mut []), (0, 0, State::default()));
    let refused = |image: &[u8]| {
        let (number, at, state) = open(image, &mut []);
        assert_eq!((state, Model::decode(image).err()), (State::default(), Some(Refusal { number, at })));
        (number, at)
    };
    assert_eq!(refused(&P1[..7]), (2, 53));
    assert_eq!(refused(&[1, 0x10, 0, 0, 0, 0, 0, 0, 0]), (4, 0));
    assert_eq!(refused(&[1, 0x10, 0, 0, 0, 0, 0, 0x10]), (4, 0));
    assert_eq!(refused(&[1, 0x10, 0, 0, 0, 0, 0, 0x20]), (3, 53));
    assert_eq!(refused(&[]), (2, 0));
    assert_eq!(open(&[2, 0x10, 0, 0, 0, 0, 0, 0], &mut []), (0, 0, State::default()));
    assert_eq!(refused(&[4, 0x10, 0, 0, 0, 0, 0, 0]), (3, 0));
    assert_eq!(refused(&[4]), (3, 0));
    assert_eq!(refused(&[1]), (2, 8));
    assert_eq!(refused(&[1, 0x00]), (3, 8));
    assert_eq!(refused(&[0; 65_537]), (1, 0));
}

#[test]
fn p6_halt_and_no_steps() {
    assert_eq!(run(&P1, State::default(), &mut [], 5), (9, 0, State::default(), 0));
    assert_eq!(run(&P1, State::default(), &mut [], 0), (0, 0, State::default(), 0));
}

#[test]
fn p7_one_step_of_model_a() {
    let (image, state, mut table) = opened_a();
    let (number, at, state, made) = run(&image, state, &mut table, 1);
    assert_eq!((number, at, made, state.clock), (0, 0, 1, 50));
    let retrieval = state.buffers[1];
    assert_eq!((retrieval.isa, &retrieval.slots[..3], retrieval.delay), (1, &[1, 2, 0][..], 100));
}

#[test]
fn p8_opening_table_of_model_a() {
    let (_, _, table) = opened_a();
    assert_eq!(table[..9], [1, 1, 0, 0, 0, 0, 0, 0, 0]);
    assert_eq!(table[9..], [0; 18]);
}

#[test]
fn p9_only_rule_2_at_350() {
    let (image, state, mut table) = opened_a();
    let (_, _, state, _) = run(&image, state, &mut table, 5);
    assert_eq!(state.clock, 350);
    assert_eq!(table[..18], [0; 18]);
    assert_eq!(table[18..], [1, 3, 0, 0, 0, 0, 0, 0, 0]);
}

#[test]
fn p10_utilities() {
    let mut spec = model_a();
    for (field, value) in [(0x8000, -32_768), (0xffff, -1), (0x7fff, 32_767), (0, 0)] {
        spec.rules[0].utility = field;
        let model = Model::decode(&pack(&spec)).expect("a valid model");
        assert_eq!(model.rules().next().map(|rule| rule.utility), Some(value));
    }
}

#[test]
fn p11_the_largest_clock() {
    let image = always_fires();
    let mut table = [1, 0, 0, 0, 0, 0, 0, 0, 0];
    let at = |clock| State { clock, ..State::default() };
    assert_eq!(run(&image, at(4_294_967_245), &mut table, 1), (0, 0, at(4_294_967_295), 1));
    assert_eq!(run(&image, at(4_294_967_246), &mut table, 1), (8, 0, at(4_294_967_246), 0));
    assert_eq!(run(&image, at(4_294_967_195), &mut table, 9), (8, 0, at(4_294_967_295), 2));
}

#[test]
fn p12_refresh_of_model_a() {
    let (image, state, table) = opened_a();
    let dirty = vec![9; table.len()];
    let mut given = dirty.clone();
    assert_eq!(refresh(&image, &state, 2, &mut given), (0, 0, 2));
    assert_eq!((&given[..18], &given[18..]), (&table[..18], &dirty[18..]));
    assert_eq!(refresh(&image, &state, 1, &mut given), (0, 0, 3));
    assert_eq!(given, table);
    let mut given = dirty.clone();
    assert_eq!(refresh(&image, &state, 4, &mut given), (10, 0, 0));
    assert_eq!(given, dirty);
    assert_eq!(refresh(&image, &state, 0, &mut given), (0, 0, 0));
    assert_eq!(given, dirty);
}

#[test]
fn a_delay_of_50_is_visible_after_a_firing_and_51_leaves_1() {
    let image = always_fires();
    for (before, after) in [(1, 0), (49, 0), (50, 0), (51, 1), (100, 50), (65_535, 65_485)] {
        let mut state = State::default();
        state.buffers[1].delay = before;
        let (number, _, state, _) = run(&image, state, &mut [1, 0, 0, 0, 0, 0, 0, 0, 0], 1);
        assert_eq!((number, state.buffers[1].delay), (0, after));
    }
}

#[test]
fn model_a_prints_what_document_01_has() {
    assert_eq!(print(&pack(&model_a())), MODEL_A_OUTPUT);
}

#[test]
fn refused_openings_print_one_line() {
    assert_eq!(print(&P1), "end 9 0\n");
    assert_eq!(print(&[]), "end 2 0\n");
    assert_eq!(print(&[2]), "end 2 0\n");
    assert_eq!(print(&[4]), "end 3 0\n");
    assert_eq!(print(&[1, 0x10, 0, 0, 0, 0, 0, 0, 0]), "end 4 0\n");
    assert_eq!(print(&vec![0; 65_537]), "end 1 0\n");
    assert_eq!(print(&vec![0; 65_536]), "end 3 0\n");
    // The finer number is printed, and no position: of variables, of buffers, of masks.
    let mut spec = model_a();
    spec.rules[2].variables = 2;
    assert_eq!(print(&pack(&spec)), "end 12 0\n");
    spec.rules[1].tests[1].buffer = 0;
    assert_eq!(print(&pack(&spec)), "end 13 0\n");
    spec.rules[0].tests[1].pattern.mask = 1;
    assert_eq!(print(&pack(&spec)), "end 11 0\n");
}

#[test]
fn a_printed_run_ends_after_a_thousand_steps() {
    let text = print(&always_fires());
    assert_eq!(text.lines().count(), 1_001);
    assert!(text.ends_with("\n50000 fire 0\nend 0 1000\n"));
}

#[test]
fn trace_of_model_a() {
    let (image, state, mut table) = opened_a();
    let (number, at, state, events) = trace(&image, state, &mut table, 2);
    assert_eq!((number, at, state.clock), (0, 0, 150));
    let expected = [Event { clock: 50, kind: Kind::Fire(0) }, Event { clock: 150, kind: Kind::Wait(100) }];
    assert_eq!(events, expected);
}

#[test]
fn table_lengths_tell_a_refused_image_from_one_without_rules() {
    assert_eq!(table_len(&P1), (0, 0, 0));
    assert_eq!(table_len(&P1[..7]), (2, 53, 0));
    let image = pack(&model_a());
    assert_eq!(table_len(&image), (0, 0, 27));
    assert_eq!(table_len(&image[..9]), (2, 67, 0));
    assert_eq!(table_len(&[&image[..], &[0]].concat()), (4, 0, 0));
    assert_eq!(number(&image), 0);
}
