//! The printed lines, from the proved printing program: an image goes in at its standard input, its lines come out.

use std::io::{ErrorKind, Write};
use std::process::{Command, Stdio};

const PROGRAM: &str = concat!(env!("CARGO_MANIFEST_DIR"), "/../../target/bin/actr");

/// What the program writes for an image.
pub fn print_proved(image: &[u8]) -> String {
    let mut program = Command::new(PROGRAM)
        .stdin(Stdio::piped())
        .stdout(Stdio::piped())
        .spawn()
        .unwrap_or_else(|error| panic!("target/bin/actr: {error}: make it with `tools/prove program`"));
    let mut input = program.stdin.take().expect("its standard input");
    match input.write_all(image) {
        // The program reads no further than it takes to see that an image is too long.
        Err(error) if error.kind() == ErrorKind::BrokenPipe => {}
        written => written.expect("the image is written"),
    }
    drop(input);
    let output = program.wait_with_output().expect("its output");
    assert!(output.status.success(), "target/bin/actr: {}", output.status);
    String::from_utf8(output.stdout).expect("letters")
}
