//! The command as a user calls it: what it writes, what it says, and its exit status.

use std::io::Write;
use std::path::PathBuf;
use std::process::{Command, Output, Stdio};

use jirvuntsag_packing::{model_a, pack};

/// The subcommands that need no library.
const PACKING: [&str; 3] = ["pack", "unpack", "check"];
/// Those that run a model on the proved library, if it is built in.
const RUNNING: [&str; 3] = ["trace", "explain", "compare"];

/// A folder of this test's own, empty.
fn folder(name: &str) -> PathBuf {
    emptied(PathBuf::from(env!("CARGO_TARGET_TMPDIR")).join(name))
}

/// One outside of the checkout, where `rt ci` takes no link.
fn folder_for_links(name: &str) -> PathBuf {
    emptied(std::env::temp_dir().join(format!("jirvuntsag-{name}-{}", std::process::id())))
}

fn emptied(folder: PathBuf) -> PathBuf {
    let _ = std::fs::remove_dir_all(&folder);
    std::fs::create_dir_all(&folder).expect("a folder");
    folder
}

/// Calls the command within a folder, with an input.
fn call(folder: &PathBuf, arguments: &[&str], input: &[u8]) -> Output {
    let mut command = Command::new(env!("CARGO_BIN_EXE_jirvuntsag-tool"));
    command.args(arguments).current_dir(folder).stdin(Stdio::piped()).stdout(Stdio::piped()).stderr(Stdio::piped());
    let mut child = command.spawn().expect("the command");
    // A command that reads no input may be gone before it is written.
    let _ = child.stdin.take().expect("its input").write_all(input);
    child.wait_with_output().expect("its end")
}

fn text(bytes: &[u8]) -> String {
    String::from_utf8(bytes.to_vec()).expect("text")
}

/// A call that fails: its exit status and what it says; it writes nothing.
fn failed(folder: &PathBuf, arguments: &[&str], input: &[u8]) -> (Option<i32>, String) {
    let before = std::fs::read_dir(folder).expect("the folder").count();
    let output = call(folder, arguments, input);
    assert!(output.stdout.is_empty(), "{arguments:?} wrote {}", text(&output.stdout));
    assert_eq!(std::fs::read_dir(folder).expect("the folder").count(), before, "{arguments:?} left a file");
    (output.status.code(), text(&output.stderr))
}

#[test]
fn packs_and_unpacks() {
    let folder = folder("packs_and_unpacks");
    let image = pack(&model_a());
    std::fs::write(folder.join("a.image"), &image).expect("the image");
    let unpacked = call(&folder, &["unpack", "a.image", "-o", "a.model"], &[]);
    assert!(unpacked.status.success() && unpacked.stdout.is_empty() && unpacked.stderr.is_empty());
    let packed = call(&folder, &["pack", "a.model", "-o", "b.image", "--names", "b.json"], &[]);
    assert!(packed.status.success() && packed.stdout.is_empty() && packed.stderr.is_empty());
    assert_eq!(std::fs::read(folder.join("b.image")).expect("the image"), image);
    let streamed = call(&folder, &["unpack", "-", "--names", "b.json"], &image);
    assert_eq!(streamed.stdout, std::fs::read(folder.join("a.model")).expect("the text"));
    assert_eq!(call(&folder, &["pack", "-"], &streamed.stdout).stdout, image);
    assert_eq!(std::fs::read_dir(&folder).expect("the folder").count(), 4);
}

#[test]
fn a_file_that_is_there_is_replaced_and_a_link_stays_a_link() {
    let folder = folder_for_links("replaced");
    std::fs::write(folder.join("m"), "buffer b\n").expect("the text");
    std::fs::write(folder.join("old"), "old").expect("a file");
    std::os::unix::fs::symlink("old", folder.join("link")).expect("a link");
    assert!(call(&folder, &["pack", "m", "-o", "link"], &[]).status.success());
    assert!(folder.join("link").is_symlink());
    assert_eq!(std::fs::read(folder.join("old")).expect("the image"), [1, 0x10, 0, 0, 0, 0, 0, 0]);
    assert!(call(&folder, &["pack", "m", "-o", "/dev/null"], &[]).status.success());
    assert!(!PathBuf::from("/dev/null").is_file());
    std::fs::remove_dir_all(folder).expect("the folder");
}

#[test]
fn refused_input_leaves_everything_as_it_was() {
    let folder = folder("refused");
    std::fs::write(folder.join("kept"), "kept").expect("a file");
    let wrong = b"type a x\nbuffer b a y 1\n";
    let said = "standard input:2:12: slot 'y' is not a slot of type 'a' (x)\n";
    assert_eq!(failed(&folder, &["pack", "-", "-o", "kept"], wrong), (Some(1), said.into()));
    let said = "standard input:2: this is no text: a byte that is not UTF-8\n";
    assert_eq!(failed(&folder, &["pack", "-", "-o", "kept"], b"buffer b\n\xff"), (Some(1), said.into()));
    let field = "the number of buffers needs 4 bits, but no bit is left [every field must be wholly there]";
    let said = format!("standard input: refused by 2 at bit 8 (byte 1, bit 0 of it): {field}\n");
    assert_eq!(failed(&folder, &["check", "-"], &[1]), (Some(1), said.clone()));
    assert_eq!(failed(&folder, &["unpack", "-", "-o", "kept"], &[1]), (Some(1), said));
    let said = "kept:1:5: 'kept' is no JSON value\n";
    assert_eq!(failed(&folder, &["unpack", "-", "--names", "kept"], &pack(&model_a())), (Some(1), said.into()));
    assert_eq!(std::fs::read(folder.join("kept")).expect("the file"), b"kept");
}

#[test]
fn names_that_do_not_fit_are_refused() {
    let folder = folder("names");
    let one = call(&folder, &["pack", "-", "-o", "i", "--names", "n"], b"buffer b\n");
    assert!(one.status.success());
    let said = "n: the names do not fit the model: 1 buffers are named and 2 are there\n";
    assert_eq!(failed(&folder, &["unpack", "-", "--names", "n"], &pack(&model_a())), (Some(1), said.into()));
}

#[test]
fn what_cannot_be_read_or_written() {
    let folder = folder("files");
    let (status, said) = failed(&folder, &["pack", "missing"], &[]);
    assert!(status == Some(2) && said.starts_with("jirvuntsag-tool: missing: "), "{said}");
    let (status, said) = failed(&folder, &["pack", "-", "-o", "no/folder"], b"buffer b");
    assert!(status == Some(2) && said.starts_with("jirvuntsag-tool: no/folder: "), "{said}");
    // The image could be written, the names cannot: neither is.
    let (status, said) = failed(&folder, &["pack", "-", "-o", "i", "--names", "no/n"], b"buffer b");
    assert!(status == Some(2) && said.starts_with("jirvuntsag-tool: no/n: "), "{said}");
    let (status, said) = failed(&folder, &["pack", "-", "-o", "i", "--names", "i"], b"buffer b");
    assert_eq!((status, said.as_str()), (Some(2), "jirvuntsag-tool: 'i' is to be written twice\n"));
    std::fs::write(folder.join("m"), "buffer b\n").expect("the text");
    let (status, said) = failed(&folder, &["pack", "m", "-o", "m"], &[]);
    assert_eq!((status, said.as_str()), (Some(2), "jirvuntsag-tool: 'm' is read, and is not to be written\n"));
    assert_eq!(std::fs::read(folder.join("m")).expect("the text"), b"buffer b\n");
}

#[test]
fn a_word_that_is_not_utf_8() {
    use std::os::unix::ffi::OsStrExt;
    let word = std::ffi::OsStr::from_bytes(b"a\xff");
    let output =
        Command::new(env!("CARGO_BIN_EXE_jirvuntsag-tool")).arg("check").arg(word).output().expect("the command");
    assert_eq!(
        (output.status.code(), text(&output.stderr).as_str()),
        (Some(2), "jirvuntsag-tool: a\u{fffd} is not UTF-8\n")
    );
}

#[test]
fn help_and_wrong_use() {
    let folder = folder("help");
    let first = |output: &[u8]| text(output).lines().next().unwrap_or_default().to_owned();
    let help = call(&folder, &["--help"], &[]);
    assert!(help.status.success() && first(&help.stdout) == "usage: jirvuntsag-tool SUBCOMMAND ..");
    for name in PACKING.into_iter().chain(RUNNING) {
        let help = call(&folder, &[name, "--help"], &[]);
        assert!(help.status.success() && first(&help.stdout).starts_with(&format!("usage: jirvuntsag-tool {name} ")));
    }
    for (arguments, wanted) in [
        (&[][..], "usage: jirvuntsag-tool SUBCOMMAND .."),
        (&["pakc"], "jirvuntsag-tool: 'pakc' is no subcommand"),
        (&["pack"], "jirvuntsag-tool: pack: one file is read, and 0 are given"),
        (&["pack", "a", "b"], "jirvuntsag-tool: pack: one file is read, and 2 are given"),
        (&["pack", "a", "-o"], "jirvuntsag-tool: pack: option '-o' needs a value"),
        (&["pack", "a", "-o", "b", "-o", "c"], "jirvuntsag-tool: pack: option '-o' is given twice"),
        (&["check", "a", "-o", "b"], "jirvuntsag-tool: check: unknown option '-o'"),
        (&["check", "a", "--fresh"], "jirvuntsag-tool: check: unknown option '--fresh'"),
        (&["trace", "a", "--fresh", "--fresh"], "jirvuntsag-tool: trace: option '--fresh' is given twice"),
        (&["trace", "a", "--fresh", "b"], "jirvuntsag-tool: trace: one file is read, and 2 are given"),
    ] {
        let (status, said) = failed(&folder, arguments, &[]);
        assert_eq!((status, first(said.as_bytes()).as_str()), (Some(2), wanted));
    }
}

/// A text where an image is expected, and the other way round, is told as what it is, or taken.
#[test]
fn texts_and_images_are_told_from_each_other() {
    let folder = folder("kinds");
    let model = b"type pair first\nbuffer goal pair first 1\nfact pair first 1\n";
    std::fs::write(folder.join("a.model"), model).expect("the text");
    std::fs::write(folder.join("text.image"), model).expect("a text by another name");
    assert!(call(&folder, &["pack", "a.model", "-o", "a.image"], &[]).status.success());
    let holds = "16 bytes, 1 buffer, 1 type besides chunk, 1 fact, 0 rules\n";
    for (file, verdict) in [("a.model", "packs to"), ("text.image", "packs to"), ("a.image", "opens:")] {
        let checked = call(&folder, &["check", file], &[]);
        assert_eq!(text(&checked.stdout), format!("{file}: {verdict} {holds}"));
        assert_eq!(call(&folder, &["trace", file], &[]).status.success(), cfg!(feature = "proved"));
    }
    let asks = b"buffer goal\nrule r\n  ?goal> state free\n  ==>\n";
    let holds = "12 bytes of version 2, 1 buffer, 0 types besides chunk, 0 facts, 1 rule\n";
    assert_eq!(text(&call(&folder, &["check", "-"], asks).stdout), format!("standard input: packs to {holds}"));
    let image = call(&folder, &["pack", "-"], asks).stdout;
    assert_eq!(text(&call(&folder, &["check", "-"], &image).stdout), format!("standard input: opens: {holds}"));
    let said = "a.model: this is a text, not an image: 'pack' makes an image of it\n";
    assert_eq!(failed(&folder, &["unpack", "a.model"], &[]), (Some(1), said.into()));
    let said = "a.image: this is an image, not a text: 'unpack' makes a text of it\n";
    assert_eq!(failed(&folder, &["pack", "a.image"], &[]), (Some(1), said.into()));
    let (status, said) = failed(&folder, &["check", "-"], b"\x01");
    assert!(status == Some(1) && said.starts_with("standard input: refused by 2 at bit 8 "), "{said}");
}

/// The input that is offered to the command without an end, so that only one who stops reading can answer.
#[test]
fn what_is_too_large_is_not_read_to_its_end() {
    let running = RUNNING.into_iter().filter(|_| cfg!(feature = "proved"));
    for subcommand in PACKING.into_iter().chain(running) {
        let file = std::fs::File::open("/dev/zero").expect("zeros");
        let mut command = Command::new(env!("CARGO_BIN_EXE_jirvuntsag-tool"));
        let output = command.args([subcommand, "-"]).stdin(file).output().expect("the command");
        let said = "standard input: this is no model: it has more than 16777216 bytes\n";
        assert_eq!((output.status.code(), text(&output.stderr).as_str()), (Some(1), said));
        assert!(output.stdout.is_empty());
    }
}

#[test]
fn all_faults_are_told_and_no_more_than_can_be_read() {
    let folder = folder("faults");
    let (status, said) = failed(&folder, &["check", "-"], b"type a b b\nbuffer c d\nrule\n");
    let wanted = "standard input:1:10: slot 'b' is named twice
standard input:2:10: type 'd' is not declared (chunk, a) [3: a type must be declared, or 0 (chunk)]
standard input:3:5: the line ends where the rule's name is expected
";
    assert_eq!((status, said.as_str()), (Some(1), wanted));
    let (_, said) = failed(&folder, &["pack", "-"], &b"wrong\n".repeat(50));
    assert_eq!(said.lines().count(), 21);
    assert!(said.ends_with("standard input: and 30 more faults\n"), "{said}");
    let (_, said) = failed(&folder, &["check", "-"], b"\x1b[2J\n");
    assert!(said.starts_with("standard input:1:1: '\\u{1b}[2J' begins no line"), "{said}");
}

/// Where the library is not built in, a run is not made, and that is said.
#[cfg(not(feature = "proved"))]
#[test]
fn a_build_without_the_library_says_so() {
    for subcommand in RUNNING {
        let (status, said) = failed(&folder("without"), &[subcommand, "-"], b"buffer b\n");
        assert!(status == Some(2) && said.starts_with("jirvuntsag-tool: this build is without "), "{said}");
    }
}

#[test]
fn the_version_is_told() {
    let folder = folder("version");
    let wanted = concat!("jirvuntsag-tool ", env!("CARGO_PKG_VERSION"), "\n");
    assert_eq!(text(&call(&folder, &["--version"], &[]).stdout), wanted);
}

/// Constants for C: names that come out alike are told apart by their numbers, and no name ends its comment.
#[test]
fn a_header_for_c() {
    let folder = folder("header");
    let model = b"type a-b c\ntype a b-c\nbuffer goal a b-c Alice\nfact a-b c alice\nfact a-b c x*/y\nfact a-b c \xc3\xa4\nrule go-on\n=goal> a\n==>\n";
    let packed = call(&folder, &["pack", "-", "-o", "m.image", "--header", "my model.h"], model);
    assert!(packed.status.success(), "{}", text(&packed.stderr));
    let header = std::fs::read_to_string(folder.join("my model.h")).expect("the header");
    let defined: Vec<&str> = header.lines().filter_map(|line| line.strip_prefix("#define MY_MODEL_")).collect();
    let wanted = [
        "H",
        "IMAGE_BYTES 35",
        "TABLE_WORDS 9",
        "BUFFER_GOAL 0 /* goal */",
        "TYPE_CHUNK 0 /* chunk */",
        "TYPE_A_B 1 /* a-b */",
        "TYPE_A 2 /* a */",
        "SLOT_A_B_C 0 /* c */",
        "SLOT_A_B_C_0 0 /* b-c */",
        "SYMBOL_NIL 0 /* nil */",
        "SYMBOL_ALICE 1 /* Alice */",
        "SYMBOL_ALICE_2 2 /* alice */",
        "SYMBOL_X__Y 3 /* x*\\/y */",
        "SYMBOL__ 4 /* \u{e4} */",
        "RULE_GO_ON 0 /* go-on */",
    ];
    assert_eq!(defined, wanted);
    let printed = call(&folder, &["pack", "-", "-o", "m.image", "--header", "-"], b"buffer b\n");
    assert!(text(&printed.stdout).contains("#define MODEL_BUFFER_B 0 /* b */\n"));
}
