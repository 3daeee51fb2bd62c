//! The examples: text, image and run belong to each other and to what was published.

use std::path::{Path, PathBuf};

use jirvuntsag_compare::{Engine, PROVED, REFERENCE};
use jirvuntsag_packing::{model_a, pack};
use jirvuntsag_reference::{Kind, State, STORE_WORDS};
use jirvuntsag_text::{Model, Names};

/// Names of all examples.
const NAMES: [&str; 11] = [
    "addition",
    "count-chr",
    "count-rule",
    "count-stop-first",
    "count-vanilla",
    "counting",
    "parents",
    "pupil",
    "retry",
    "rule-order",
    "successor",
];
/// Those of them that nobody has published.
const OWN: [&str; 3] = ["counting", "pupil", "retry"];

fn folder() -> PathBuf {
    Path::new(env!("CARGO_MANIFEST_DIR")).join("../../examples")
}

fn bytes(name: &str, ending: &str) -> Vec<u8> {
    let path = folder().join(format!("{name}.{ending}"));
    std::fs::read(&path).unwrap_or_else(|error| panic!("{}: {error}", path.display()))
}

fn text(name: &str, ending: &str) -> String {
    String::from_utf8(bytes(name, ending)).expect("text")
}

fn model(name: &str) -> Model {
    Model::from_text(&text(name, "model")).unwrap_or_else(|error| panic!("{}", error.in_file(name)))
}

/// Opens and runs an example with a store; gives its steps and the state at its end.
fn run_with(engine: &Engine, name: &str, store: &mut [u16]) -> (Vec<(u32, Kind)>, State) {
    let image = bytes(name, "image");
    let mut table = engine.zeros(&image);
    let (number, at, state) = (engine.open)(&image, &mut table);
    assert_eq!((number, at), (0, 0));
    let (number, at, state, events) = (engine.trace_lent)(&image, state, &mut table, 1_000, Some(store));
    assert_eq!((number, at), (9, 0), "{name} halts");
    (events.iter().map(|event| (event.clock, event.kind)).collect(), state)
}

/// The same with an empty store, as the printing program does.
fn run(engine: &Engine, name: &str) -> (Vec<(u32, Kind)>, State) {
    run_with(engine, name, &mut [0; STORE_WORDS])
}

#[test]
fn these_are_all_and_the_page_lists_them() {
    let files = std::fs::read_dir(folder()).expect("the folder").map(|entry| entry.expect("a file").file_name());
    let mut files: Vec<String> = files.map(|name| name.into_string().expect("a name")).collect();
    files.sort();
    let endings = ["image", "model", "names.json", "trace"];
    let mut wanted: Vec<String> =
        NAMES.iter().flat_map(|name| endings.map(|ending| format!("{name}.{ending}"))).collect();
    wanted.push("README.md".into());
    wanted.push("fan-effect".into());
    wanted.sort();
    assert_eq!(files, wanted);
    let page = std::fs::read_to_string(folder().join("README.md")).expect("the page");
    for name in NAMES {
        assert!(page.contains(&format!("\n| `{name}` | ")), "the page has no row for {name}");
    }
}

#[test]
fn texts_pack_to_the_images_and_images_to_themselves() {
    for name in NAMES {
        let (model, image) = (model(name), bytes(name, "image"));
        assert_eq!(model.image(), image, "{name}");
        let unnamed = Model::from_image(&image).expect(name);
        assert_eq!(Model::from_text(&unnamed.to_text()).expect(name).image(), image, "{name}");
        assert_eq!(model.names().to_json(), text(name, "names.json"), "{name}");
        let names = Names::from_json(&text(name, "names.json")).expect(name);
        let named = unnamed.with_names(names).expect(name).to_text();
        assert_eq!(Model::from_text(&named).expect(name), model, "{name}");
    }
}

/// `published.txt` has the images of the published models, made without this packer.
#[test]
fn images_are_the_published_models() {
    let published = include_str!("published.txt");
    for line in published.lines() {
        let (name, wanted) = line.split_once(' ').expect("a name and bytes");
        let hex: String = bytes(name, "image").iter().map(|byte| format!("{byte:02x}")).collect();
        assert_eq!(hex, wanted, "{name}");
    }
    assert_eq!(published.lines().count(), NAMES.len() - OWN.len());
    assert_eq!(bytes("counting", "image"), pack(&model_a()));
}

#[test]
fn runs_are_the_traces() {
    for engine in [&PROVED, &REFERENCE] {
        for name in NAMES {
            assert_eq!((engine.print)(&bytes(name, "image")), text(name, "trace"), "{name} on {}", engine.name);
        }
    }
}

/// The published times in seconds, with the rule that fires or nothing for a chunk that arrives.
type Published = &'static [(f64, Option<&'static str>)];

const VANILLA: Published =
    &[(0.050, Some("start")), (0.100, Some("increment")), (0.150, Some("increment")), (0.200, Some("stop"))];
const CHR: Published = &[
    (0.05, Some("start")),
    (1.05, None),
    (1.1, Some("increment")),
    (2.1, None),
    (2.15, Some("increment")),
    (2.2, Some("stop")),
    (3.15, None),
];

#[test]
fn times_and_rules_are_the_published_ones() {
    for (name, published) in [("count-vanilla", VANILLA), ("count-chr", CHR), ("count-stop-first", CHR)] {
        let rules = &model(name).names().rules.clone();
        for engine in [&PROVED, &REFERENCE] {
            let steps = run(engine, name).0;
            let told: Vec<(u32, Option<&str>)> = steps
                .iter()
                .map(|&(clock, kind)| match kind {
                    Kind::Fire(rule) => (clock, Some(rules[usize::from(rule)].name.as_str())),
                    Kind::Wait(_) => (clock, None),
                })
                .collect();
            let wanted: Vec<_> = published.iter().map(|(s, rule)| ((s * 1_000.0).round() as u32, *rule)).collect();
            assert_eq!(told, wanted, "{name} on {}", engine.name);
        }
    }
}

/// What the first buffers hold at the end.
const ENDS: [(&str, [&str; 2]); 11] = [
    ("addition", ["add 5 2 7", "chunk"]),
    ("count-chr", ["chunk", "count-order 4 5"]),
    ("count-rule", ["count 4", "chunk"]),
    ("count-stop-first", ["chunk", "count-order 4 5"]),
    ("count-vanilla", ["chunk", "count-order 4 5"]),
    ("counting", ["chunk", "chunk"]),
    ("parents", ["g Max Alice Bob done", "parent Alice Bob Max"]),
    ("pupil", ["task 3 2 nil done 5", "chunk"]),
    ("retry", ["call Ann work dialled 5551", "chunk"]),
    ("rule-order", ["foo v3", "bar y"]),
    ("successor", ["g 3", "chunk"]),
];

#[test]
fn end_states_are_the_published_ones() {
    for (name, wanted) in ENDS {
        let model = model(name);
        for engine in [&PROVED, &REFERENCE] {
            let state = run(engine, name).1;
            for (buffer, wanted) in state.buffers.iter().zip(wanted) {
                let isa = &model.names().types[usize::from(buffer.isa)];
                let values = buffer.slots[..isa.slots.len()].iter().map(|&value| model.names().symbol(value));
                let held: Vec<String> = std::iter::once(isa.name.clone()).chain(values).collect();
                assert_eq!(held.join(" "), wanted, "{name} on {}", engine.name);
                assert_eq!(buffer.delay, 0);
            }
        }
    }
}

/// The pupil learns one fact, the sum, and a run that is lent the store knows it from the start.
#[test]
fn the_pupil_remembers() {
    let names = model("pupil").names().clone();
    for engine in [&PROVED, &REFERENCE] {
        let mut store = [0; STORE_WORDS];
        let (steps, first) = run_with(engine, "pupil", &mut store);
        assert_eq!((steps.len(), store[0]), (15, 1), "{}", engine.name);
        assert_eq!(names.chunk(store[1], &store[2..10]), "sum first=3 second=2 result=5");
        let (steps, again) = run_with(engine, "pupil", &mut store);
        let fires = [(50, Kind::Fire(0)), (100, Kind::Wait(50)), (150, Kind::Fire(1))];
        assert_eq!((&steps[..], store[0]), (&fires[..], 1), "{}", engine.name);
        assert_eq!(again.buffers[0], first.buffers[0], "the same answer");
    }
}

/// Ann's number at work is not known: the retrieval buffer is in error from the request on, until another one finds a fact.
#[test]
fn the_caller_asks_again() {
    let image = bytes("retry", "image");
    for engine in [&PROVED, &REFERENCE] {
        let mut table = engine.zeros(&image);
        let mut state = (engine.open)(&image, &mut table).2;
        let mut told = Vec::new();
        for _ in 0..5 {
            state = (engine.run)(&image, state, &mut table, 1).2;
            let retrieval = state.buffers[1];
            told.push((state.clock, retrieval.isa, retrieval.delay, retrieval.error));
        }
        let failed = [(50, 0, 200, true), (250, 0, 0, true)];
        let found = [(300, 1, 100, false), (400, 1, 0, false), (450, 0, 0, false)];
        assert_eq!(told, [&failed[..], &found].concat(), "{}", engine.name);
    }
}
