//! `jirvuntsag-tool pack`: from text to an image.

use crate::arguments::Arguments;
use crate::c_header::c_header;
use crate::failure::Failure;
use crate::files::{model_of_text, read_text, write_all, STANDARD};
use crate::Command;

/// The subcommand.
pub const COMMAND: Command = Command {
    name: "pack",
    summary: "packs a model's text to an image",
    usage: "usage: jirvuntsag-tool pack TEXT [-o IMAGE] [--names FILE] [--header FILE]
Packs the model in the file TEXT ('-' for standard input) and writes its image to the file IMAGE, or to standard
output. With --names the names of buffers, types, slots, symbols, rules and variables are written to FILE, as JSON.
With --header constants for buffers, types, slots, symbols and rules are written to FILE, for C and C++; their names
begin with that of FILE. A text that is no model is explained as by 'check', and nothing is written.",
    options: &["-o", "--names", "--header"],
    flags: &[],
    run,
};

fn run(arguments: Arguments) -> Result<(), Failure> {
    let model = model_of_text(&arguments.input, &read_text(&arguments.input)?)?.model;
    let (image, names) = (model.image(), model.names().to_json());
    let header = arguments.option("--header").map(|path| (path, c_header(&model, path)));
    let mut outputs = vec![(arguments.option("-o").unwrap_or(STANDARD), &image[..])];
    if let Some(path) = arguments.option("--names") {
        outputs.push((path, names.as_bytes()));
    }
    if let Some((path, header)) = &header {
        outputs.push((path, header.as_bytes()));
    }
    write_all(&arguments.input, &outputs)
}
