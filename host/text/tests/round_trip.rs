//! Image to text to image, and text to image to text: nothing is lost.

use jirvuntsag_generate::{damage, each_seed, model, model_of, Shape};
use jirvuntsag_packing::{
    model_a, pack, pack_with_fields, retries, ActionSpec, ChunkSpec, ModelSpec, QuerySpec, RuleSpec, Term, TestSpec,
};
use jirvuntsag_text::{Model, Names};

/// Image, text, image, text: the images are the same, and so are the texts.
fn assert_round(image: &[u8]) {
    let first = Model::from_image(image).expect("an image that opens");
    assert_eq!(first.image(), image);
    let text = first.to_text();
    let second = Model::from_text(&text).unwrap_or_else(|error| panic!("{}\n{text}", error.in_file("text")));
    assert_eq!(second.image(), image, "{text}");
    assert_eq!(second.to_text(), text);
}

#[test]
fn model_a_as_text() {
    let text = Model::from_image(&pack(&model_a())).expect("model A").to_text();
    let wanted = "failure latency 200

type t1 s0 s1
type t2 s0 s1

fact t1 s0 x1 s1 x2 activation 10 latency 100
fact t1 s0 x2 s1 x3 activation 10 latency 100

buffer b0 t2 s0 x1 s1 x3
buffer b1

rule r0 utility 0
  =b0> t2 s0 ?v0
  =b1> chunk
  ==>
  +b1> t1 s0 ?v0

rule r1 utility 0
  =b0> t2 s0 ?v0
  =b1> t1 s0 ?v0 s1 ?v1
  ==>
  =b0> s0 ?v1
  +b1> t1 s0 ?v1

rule r2 utility 1
  =b0> t2 s0 ?v0 s1 ?v0
  ==>
  -b0>
";
    assert_eq!(text, wanted);
    assert_round(&pack(&model_a()));
}

#[test]
fn queries_as_text() {
    let text = Model::from_image(&pack(&retries())).expect("a model").to_text();
    let wanted = "failure latency 200
symbol x2 = 2
symbol x3 = 3

type t1 s0 s1
type t2 s0

fact t1 s0 x2 s1 x3 activation 10 latency 100

buffer b0 t2 s0 x1
buffer b1

rule r0 utility 0
  =b0> t2 s0 ?v0
  =b1> chunk
  ?b1> state free
  ==>
  +b1> t1 s0 ?v0

rule r1 utility 0
  ?b0> state free
  ?b1> state busy
  ==>

rule r2 utility 1
  =b0> t2
  ?b1> state error
  ==>
  =b0> s0 x2
  +b1> t1 s0 x2

rule r3 utility 0
  =b1> t1
  ==>
  -b0>
  -b1>
";
    assert_eq!(text, wanted);
    assert_round(&pack(&retries()));
}

/// The version is said where no rule asks for it, and nowhere else.
#[test]
fn a_version_without_queries() {
    let line = |spec: ModelSpec| {
        let image = pack(&spec);
        assert_round(&image);
        let text = Model::from_image(&image).expect("a model").to_text();
        (image[0], text.lines().any(|line| line.starts_with("version")))
    };
    let second = |spec| ModelSpec { version: Some(2), ..spec };
    assert_eq!([line(model_a()), line(second(model_a()))], [(1, false), (2, true)]);
    assert_eq!([line(retries()), line(second(retries()))], [(2, false), (2, false)]);
    let said =
        |lines: &str| Model::from_text(&format!("{lines}buffer b\nrule r\n?b> state free\n==>\n")).expect("a model");
    assert_eq!(said("version 2\n"), said(""));
    assert_eq!(Model::from_text("buffer b\nversion 2\n").expect("a model").image(), [2, 0x10, 0, 0, 0, 0, 0, 0]);
}

#[test]
fn random_models() {
    let mut versions = [0; 3];
    each_seed(1, 3_000, |_, mut rng| {
        let image = pack(&model(&mut rng));
        versions[usize::from(image[0])] += 1;
        assert_round(&image);
    });
    assert!(versions[1] > 500 && versions[2] > 500, "{versions:?} of each version");
}

#[test]
fn damaged_images_that_still_open() {
    let mut opened = 0;
    each_seed(50_000, 3_000, |_, mut rng| {
        let shape = Shape::small(&mut rng);
        let packed = pack_with_fields(&model_of(&mut rng, shape));
        let (_, image) = damage(&mut rng, &packed);
        if Model::from_image(&image).is_ok() {
            assert_round(&image);
            opened += 1;
        }
    });
    assert!(opened > 300, "{opened} opened");
}

/// Symbols and variables in an order that no first appearance gives, utilities of both signs, empty masks.
fn out_of_order() -> ModelSpec {
    let v = Term::Variable;
    let rule = |utility| RuleSpec {
        utility,
        variables: 3,
        tests: vec![
            TestSpec::new(0, 1, &[(0, v(2)), (1, v(0)), (2, Term::Symbol(4_095))]),
            TestSpec::new(1, 1, &[(0, v(1)), (2, v(2))]),
            TestSpec::new(2, 0, &[]),
        ],
        actions: vec![
            ActionSpec::modify(0, &[]),
            ActionSpec::request(1, 2, &[]),
            ActionSpec::modify(2, &[]),
            ActionSpec::clear(3),
        ],
        ..RuleSpec::default()
    };
    let (first, last) = (ChunkSpec::new(1, &[9, 0, 2]), ChunkSpec::new(1, &[1, 3, 2]));
    ModelSpec {
        failure: 65_535,
        types: vec![3, 0],
        opening: vec![first, ChunkSpec::new(2, &[]), ChunkSpec::nil(), last],
        facts: vec![],
        rules: [0x8000, 0xffff, 0x7fff, 1, 999, 0xfc18, 0xfc17].map(rule).into(),
        ..ModelSpec::default()
    }
}

#[test]
fn numbers_out_of_order_are_written() {
    let image = pack(&out_of_order());
    assert_round(&image);
    let text = Model::from_image(&image).expect("opens").to_text();
    for line in ["symbol x2 = 2", "symbol x9 = 9", "symbol x4095 = 4095", "  =b0>", "  +b1> t2"] {
        assert!(text.lines().any(|one| one == line), "{line} is not in\n{text}");
    }
    assert_eq!(text.lines().filter(|line| line.starts_with("symbol")).count(), 3);
    let utilities = ["-32.768", "-0.001", "32.767", "0.001", "0.999", "-1", "-1.001"];
    for (number, utility) in utilities.iter().enumerate() {
        let line = format!("rule r{number} utility {utility} variables ?v0 ?v1 ?v2");
        assert!(text.lines().any(|one| one == line), "{line} is not in\n{text}");
    }
}

#[test]
fn names_go_to_a_file_and_back() {
    each_seed(70_000, 300, |_, mut rng| {
        let image = pack(&model(&mut rng));
        let text = Model::from_image(&image).expect("opens").to_text();
        let named = Model::from_text(&text).expect("packs");
        let names = Names::from_json(&named.names().to_json()).expect("names");
        assert_eq!(&names, named.names());
        let again = Model::from_image(&image).expect("opens").with_names(names).expect("names that fit");
        assert_eq!(again.to_text(), text);
    });
}

#[test]
fn order_of_lines_and_slots_changes_no_byte() {
    let one = "type t a b c\nbuffer x t a 1 b 2\nbuffer y\n
rule r variables ?p ?q
 =x> t a ?p b ?q
 =y> chunk
 ==>
 =x> a ?q b ?p
 -y>";
    let other = "# the same\ntype t a b c\r\nbuffer x isa t a 1 b 2 c nil ; opening\nbuffer y chunk
rule r utility 0.0 variables ?p ?q
=y> isa chunk
=x> isa t b ?q a ?p
==>
-y>
=x> b ?p a ?q
failure latency 0";
    let (one, other) = (Model::from_text(one).expect("one"), Model::from_text(other).expect("other"));
    assert_eq!(one, other);
}

/// Queries stand between tests in any order, on one line or on two, and are packed by rising buffers.
#[test]
fn order_and_lines_of_queries_change_no_byte() {
    let declared = "type t a\nbuffer x t a 1\nbuffer y\nbuffer z\n";
    let rules = [
        "rule r\n =x> t a ?n\n ?x> state free\n ?y> state busy\n ?z> state error\n ==>\n -x>\n",
        "rule r\n ?z> state error\n =x> t a ?n\n ?y> state busy\n ?x> state free\n ==>\n -x>\n",
        "rule r\n ?y>\n  state busy ; on its way\n ?z>\n\n# no fact\n  state error\n ?x>\n state free\n =x> t a ?n\n ==>\n -x>\n",
    ];
    let models = rules.map(|rule| Model::from_text(&format!("{declared}{rule}")).expect(rule));
    let queries = &models[0].spec().rules[0].queries;
    assert_eq!(queries, &[QuerySpec::free(0), QuerySpec::busy(1), QuerySpec::error(2)]);
    assert!(models.iter().all(|model| *model == models[0]));
}

/// A rule may have queries alone.
#[test]
fn a_rule_without_tests() {
    let model = Model::from_text("buffer x\nrule r\n?x> state error\n==>\n-x>\n").expect("a model");
    assert!(model.spec().rules[0].tests.is_empty());
    assert_eq!(model.image()[0], 2);
    assert_round(&model.image());
}
