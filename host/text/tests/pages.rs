//! What docs/MODELS.md and docs/NUMBERS.md print is true.

mod reading;

use jirvuntsag_packing::{model_a, pack_with_fields, Role};
use jirvuntsag_text::{read_image, Flaw, Model, IMAGE_LIMIT};
use reading::{block, code, page, rows};

#[test]
fn the_rules_and_their_numbers_are_as_printed() {
    let page = page("NUMBERS.md");
    let printed: Vec<Vec<&str>> = rows(&page, "## The rules of an image");
    let told: Vec<Vec<String>> = Flaw::ALL.iter().map(|flaw| vec![flaw.number().to_string(), flaw.rule()]).collect();
    assert_eq!(printed, told);
}

#[test]
fn the_refusals_of_the_page_of_numbers_are_as_printed() {
    let numbers = page("NUMBERS.md");
    let packed = pack_with_fields(&model_a());
    let mask = packed.nth(Role::TestMask, 0).expect("a mask");
    let refused = read_image(&packed.with(mask, 0xa0)).expect_err("a mask with a bit too many");
    assert_eq!(block(&numbers, "refused"), format!("counting.image: {refused}\n"));
    let of_text = numbers.split('`').find(|code| code.starts_with("count.model:")).expect("a refusal of a text");
    let models = page("MODELS.md");
    assert!(rows(&models, "## Errors").iter().any(|row| code(row[2]) == of_text), "{of_text}");
}

#[test]
fn the_example_packs_and_has_the_names_printed() {
    let page = page("MODELS.md");
    let model = Model::from_text(&block(&page, "model")).unwrap_or_else(|error| panic!("{}", error.in_file("page")));
    assert_eq!(model.names().to_json(), block(&page, "names"));
    assert_eq!(Model::from_text(&model.to_text()).expect("packs").image(), model.image());
}

#[test]
fn the_errors_are_as_printed() {
    let page = page("MODELS.md");
    let example = block(&page, "model");
    let rows = rows(&page, "## Errors");
    assert_eq!(rows.len(), 10);
    for row in rows {
        // A cell's blanks at its ends stand within the backquotes.
        let (old, new) = (code(row[0]), code(row[1]));
        assert_eq!(example.matches(old).count(), 1, "{old}");
        let error = Model::from_text(&example.replace(old, new)).expect_err(new);
        assert_eq!(error.in_file("count.model"), code(row[2]));
    }
}

/// A text with so many of what a row of the limits counts.
fn text_with(what: &str, count: usize) -> String {
    let each = |line: &str| (0..count).map(|n| line.replace('N', &n.to_string())).collect::<String>();
    let terms = |from: usize, to: usize| (from..to).map(|n| format!(" s{} ?v{n}", n % 8)).collect::<String>();
    let eight = "buffer a\nbuffer b\ntype t s0 s1 s2 s3 s4 s5 s6 s7\n";
    match what {
        "buffers" => each("buffer bN\n"),
        "types, besides `chunk`" => format!("buffer b\n{}", each("type tN\n")),
        "slots of a type" => format!("buffer b\ntype t {}", each("sN ")),
        "facts" => format!("buffer b\ntype t\n{}", each("fact t\n")),
        "rules" => format!("buffer b\n{}", each("rule rN\n=b> chunk\n==>\n")),
        "variables of a rule" => {
            format!("{eight}rule r\n=a> t{}\n=b> t{}\n==>\n", terms(0, count.min(8)), terms(8, count))
        }
        "symbols, besides nil" => {
            let slot = |n| if n % 8 == 0 { format!("\nfact t s0 x{n}") } else { format!(" s{} x{n}", n % 8) };
            eight.to_owned() + &(0..count).map(slot).collect::<String>()
        }
        "latencies, activations" => format!("buffer b\nfailure latency {count}"),
        other => panic!("the page has a limit that is not tried: {other}"),
    }
}

#[test]
fn the_limits_are_as_printed() {
    let page = page("MODELS.md");
    let rows = rows(&page, "## Limits");
    let (counted, ends) = rows.split_at(8);
    for row in counted {
        let digits = row[1].rsplit(" to ").next().and_then(|cell| cell.split(", ").next()).expect("a number");
        let most: usize = digits.replace(',', "").parse().expect("a number");
        assert!(Model::from_text(&text_with(row[0], most)).is_ok(), "{most} {}", row[0]);
        assert!(Model::from_text(&text_with(row[0], most + 1)).is_err(), "one more than {most} {}", row[0]);
    }
    let rule = |utility: &str| Model::from_text(&format!("buffer b\nrule r utility {utility}\n=b> chunk\n==>")).is_ok();
    assert_eq!(ends[0], ["utilities", "-32.768 to 32.767, with three decimals"]);
    assert!(rule("-32.768") && rule("32.767") && !rule("-32.769") && !rule("32.768") && !rule("0.0001"));
    assert_eq!(ends[1][1].replace(',', ""), format!("{IMAGE_LIMIT} bytes"));
}
