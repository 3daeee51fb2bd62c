//! `jirvuntsag-tool unpack`: from an image to text.

use crate::arguments::Arguments;
use crate::failure::Failure;
use crate::files::{model_of_image, read_image, write_all, STANDARD};
use crate::Command;

/// The subcommand.
pub const COMMAND: Command = Command {
    name: "unpack",
    summary: "prints an image as text",
    usage: "usage: jirvuntsag-tool unpack IMAGE [-o TEXT] [--names FILE]
Writes the model in the file IMAGE ('-' for standard input) as text to the file TEXT, or to standard output. Packed
again, the text gives the same bytes. Names are those of FILE, as 'pack --names' writes it; without it they are
invented: b0, t1, s0, x1, r0, v0. An image that is refused is explained as by 'check'.",
    options: &["-o", "--names"],
    flags: &[],
    run,
};

fn run(arguments: Arguments) -> Result<(), Failure> {
    let image = read_image(&arguments.input)?;
    let text = model_of_image(&arguments.input, &image, arguments.option("--names"))?.to_text();
    write_all(&arguments.input, &[(arguments.option("-o").unwrap_or(STANDARD), text.as_bytes())])
}
