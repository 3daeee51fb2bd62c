//! `jirvuntsag-tool check`: whether a text packs or an image opens, and what it holds.

use jirvuntsag_text::Model;

use crate::arguments::Arguments;
use crate::failure::Failure;
use crate::files::{model_of_file, shown, write_out};
use crate::hints::hints;
use crate::Command;

/// The subcommand.
pub const COMMAND: Command = Command {
    name: "check",
    summary: "says whether a text packs or an image opens, and all that is wrong with it",
    usage: "usage: jirvuntsag-tool check MODEL
Says in one line what the text or the image in the file MODEL ('-' for standard input) holds; of a text also which
symbols stand in one place only, and may be mistyped. An image that is refused is explained by the number, the position
of the field, the field's name, what was found in it, and in brackets the rule that it breaks. The position is the
field's first bit: as a bit of the image, and as a byte and a bit of that byte. Bytes and bits count from 0, and the most
significant bit of a byte is its bit 0. A text that is refused is explained by each fault with its line and column; where
an image could break the same rule, that and its number stand in brackets: [11: ..].",
    options: &[],
    flags: &[],
    run,
};

fn run(arguments: Arguments) -> Result<(), Failure> {
    let held = model_of_file(&arguments.input, None)?;
    let verdict = if held.is_text { "packs to" } else { "opens:" };
    let hints = hints(&arguments.input, &held.lone).unwrap_or_default();
    write_out(format!("{}: {verdict} {}\n{hints}", shown(&arguments.input), contents(&held.model)).as_bytes())
}

/// What a model holds; the type of an empty buffer is not among those that it declares.
fn contents(model: &Model) -> String {
    let spec = model.spec();
    let version = if spec.header().version == 1 { "" } else { " of version 2" };
    format!(
        "{} bytes{version}, {}, {} besides chunk, {}, {}",
        model.image().len(),
        counted(spec.opening.len(), "buffer"),
        counted(spec.types.len(), "type"),
        counted(spec.facts.len(), "fact"),
        counted(spec.rules.len(), "rule")
    )
}

/// `1 rule`, `2 rules`.
fn counted(count: usize, what: &str) -> String {
    format!("{count} {what}{}", if count == 1 { "" } else { "s" })
}
