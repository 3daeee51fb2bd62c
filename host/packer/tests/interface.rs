//! The calls as a caller by address makes them: what is read, what is given back, and what is refused.
#![allow(unsafe_code)]

use std::sync::atomic::AtomicU8;

use jirvuntsag_packer::{
    jirvuntsag_packer_fields, jirvuntsag_packer_free, jirvuntsag_packer_interface, jirvuntsag_packer_part,
    jirvuntsag_packer_runs, jirvuntsag_packer_text, Answer, Batch,
};
use jirvuntsag_text::Flaw;

const TEXT: &str = include_str!("../../../examples/counting.model");
const IMAGE: &[u8] = include_bytes!("../../../examples/counting.image");
/// An image of version 2, whose first request fails.
const RETRY: &[u8] = include_bytes!("../../../examples/retry.image");

/// Words of a state.
const STATE: usize = 89;
/// Words of a run: three, and its state.
const ROW: usize = 3 + STATE;

/// The error and the parts of an answer, which is freed.
fn parts(answer: *mut Answer) -> (String, [Vec<u8>; 3]) {
    let part = |number| {
        let mut length = usize::MAX;
        let at = unsafe { jirvuntsag_packer_part(answer, number, &mut length) };
        unsafe { std::slice::from_raw_parts(at, length) }.to_vec()
    };
    let parts = (String::from_utf8(part(0)).expect("UTF-8"), [part(1), part(2), part(3)]);
    assert!(part(4).is_empty() && part(u32::MAX).is_empty());
    unsafe { jirvuntsag_packer_free(answer) };
    parts
}

/// The error and the first two parts of an answer that has no third.
fn taken(answer: *mut Answer) -> (String, Vec<u8>, Vec<u8>) {
    let (error, [first, second, third]) = parts(answer);
    assert!(third.is_empty());
    (error, first, second)
}

fn packed(text: &[u8]) -> (String, Vec<u8>, Vec<u8>) {
    taken(unsafe { jirvuntsag_packer_text(text.as_ptr(), text.len()) })
}

fn words(bytes: &[u8]) -> Vec<u32> {
    bytes.chunks_exact(4).map(|four| u32::from_ne_bytes(four.try_into().expect("four"))).collect()
}

/// Runs of one image that are lent no store, with all events kept.
fn run(image: &[u8], jobs: &[u32], states: &[u32], steps: u16) -> (String, Vec<u8>, Vec<u8>) {
    run_unless(std::ptr::null(), image, jobs, states, steps)
}

/// The same, unless it is stopped.
fn run_unless(
    stop: *const AtomicU8,
    image: &[u8],
    jobs: &[u32],
    states: &[u32],
    steps: u16,
) -> (String, Vec<u8>, Vec<u8>) {
    let (ends, keep) = ([image.len() as u32], [1; 257]);
    taken(unsafe { jirvuntsag_packer_runs(&batch(image, &ends, jobs, states, &keep, steps, stop)) })
}

/// The rows of runs, their events, and what their stores have then.
type Learned = (Vec<u32>, Vec<u32>, Vec<u16>);

/// Runs of the counting model from its opening, with or without events, that are lent stores; or the error.
fn learn(jobs: &[u32], stores: &[u16], keep: &[u8]) -> Result<Learned, String> {
    let ends = [IMAGE.len() as u32];
    let bare = batch(IMAGE, &ends, jobs, &[], keep, 1_000, std::ptr::null());
    let batch = Batch { stores: stores.as_ptr(), stores_len: stores.len(), ..bare };
    let (error, [rows, events, learned]) = parts(unsafe { jirvuntsag_packer_runs(&batch) });
    let learned = learned.chunks_exact(2).map(|two| u16::from_ne_bytes(two.try_into().expect("two"))).collect();
    if error.is_empty() {
        Ok((words(&rows), words(&events), learned))
    } else {
        Err(error)
    }
}

/// A batch of runs of one image that are lent no store.
fn batch(
    image: &[u8],
    ends: &[u32; 1],
    jobs: &[u32],
    states: &[u32],
    keep: &[u8],
    steps: u16,
    stop: *const AtomicU8,
) -> Batch {
    Batch {
        images: image.as_ptr(),
        images_len: image.len(),
        ends: ends.as_ptr(),
        ends_len: 1,
        jobs: jobs.as_ptr(),
        jobs_len: jobs.len(),
        states: states.as_ptr(),
        states_len: states.len(),
        stores: std::ptr::null(),
        stores_len: 0,
        keep: keep.as_ptr(),
        keep_len: keep.len(),
        steps,
        stop,
    }
}

#[test]
fn a_text_gives_its_image_and_names() {
    let (error, image, names) = packed(TEXT.as_bytes());
    assert_eq!((error.as_str(), image.as_slice()), ("", IMAGE));
    assert!(String::from_utf8(names).expect("UTF-8").contains("\"go-on\""));
}

#[test]
fn a_wrong_text_gives_its_place_and_nothing_else() {
    let (error, image, names) = packed(b"type t a\nbuffer goal t b 1");
    assert!(error.starts_with("2:15: "), "{error}");
    assert!(image.is_empty() && names.is_empty());
    assert!(packed(b"type \xff").0.contains("UTF-8"));
}

#[test]
fn nothing_may_stand_at_any_address() {
    let nothing = std::ptr::null();
    assert!(!taken(unsafe { jirvuntsag_packer_text(nothing, 0) }).0.is_empty());
    assert!(taken(unsafe { jirvuntsag_packer_fields(std::ptr::null(), 0) }).0.contains("end before"));
    unsafe { jirvuntsag_packer_free(std::ptr::null_mut()) };
}

/// What is said of fields, and the image that they give.
fn fields(words: &[u16]) -> (String, Vec<u8>) {
    let (error, image, _) = taken(unsafe { jirvuntsag_packer_fields(words.as_ptr(), words.len()) });
    (error, image)
}

/// One buffer, a type with one slot, and a rule with a test of that buffer and an action.
const ONE_RULE: [u16; 20] = [1, 1, 1, 1, 0, 0, 1, 0, 0, 1, 1, 1, 0, 1, 0x80, 4_096, 0, 0, 0x80, 4_096];

/// The same with one field altered.
fn with(at: usize, field: u16) -> Vec<u16> {
    altered(&ONE_RULE, at, field)
}

/// One buffer, and a rule of version 2 without tests that asks whether it is free.
const ONE_QUERY: [u16; 14] = [2, 1, 0, 1, 0, 0, 0, 0, 0, 0, 0, 1, 0, 1];

fn altered(fields: &[u16], at: usize, field: u16) -> Vec<u16> {
    let mut fields = fields.to_vec();
    fields[at] = field;
    fields
}

#[test]
fn fields_give_an_image_only_if_it_opens() {
    assert_eq!(fields(&[1, 1, 0, 0, 0, 0, 0]), (String::new(), vec![1, 0x10, 0, 0, 0, 0, 0, 0]));
    assert_eq!(fields(&ONE_RULE).0, "");
    let wide = "a slot is 4096, which is too large for its field of 12 bits";
    assert_eq!(fields(&[1, 1, 1, 0, 0, 0, 1, 1, 4_096]).0, wide);
    let wide = "the number of buffers is 17, which is too large for its field of 4 bits";
    assert_eq!(fields(&[&[1, 17, 0, 0, 0, 0][..], &[0; 17]].concat()).0, wide);
}

/// The rules of images, by their numbers and in their words: before there is an image, and of the image that there would be.
#[test]
fn fields_break_the_rules_of_images() {
    for (broken, found, flaw) in [
        (ONE_RULE[..19].to_vec(), "the fields end before a term", Flaw::Missing),
        ([&ONE_RULE[..], &[0, 0]].concat(), "2 fields follow the last one", Flaw::Follows),
        (with(0, 4), "the version is 4", Flaw::Version),
        (with(7, 2), "type 2 is not declared", Flaw::UnknownType),
        (with(17, 3), "an action's kind is 3", Flaw::ActionKind),
    ] {
        assert_eq!(fields(&broken), (flaw.told(found), Vec::new()));
    }
    for (broken, place, flaw) in [
        (with(11, 9), "refused by 3 at bit 87 (byte 10, bit 7 of it): ", Flaw::VariableCount),
        (with(14, 0x40), "refused by 11 at bit 100 (byte 12, bit 4 of it): ", Flaw::UnknownSlot),
        (with(15, 4_097), "refused by 12 at bit 108 (byte 13, bit 4 of it): ", Flaw::UnknownVariable),
        (with(15, 1), "refused by 12 at bit 121 (byte 15, bit 1 of it): ", Flaw::UntestedVariable),
        (with(16, 1), "refused by 13 at bit 121 (byte 15, bit 1 of it): ", Flaw::UnknownBuffer),
    ] {
        let (error, image) = fields(&broken);
        assert!(error.starts_with(place) && error.ends_with(&format!(" [{}]", flaw.rule())), "{error}");
        assert!(image.is_empty());
    }
}

/// Version 2 has queries; an image is packed in the version that its fields say.
#[test]
fn fields_of_version_2() {
    let asks = vec![2, 0x10, 0, 0x20, 0, 0, 0, 0, 0, 0, 0, 0x21];
    assert_eq!(fields(&ONE_QUERY), (String::new(), asks));
    assert_eq!(fields(&[2, 1, 0, 0, 0, 0, 0]), (String::new(), vec![2, 0x10, 0, 0, 0, 0, 0, 0]));
    let wide = "a query's kind is 4, which is too large for its field of 2 bits";
    assert_eq!(fields(&altered(&ONE_QUERY, 13, 4)).0, wide);
    assert_eq!(fields(&ONE_QUERY[..11]).0, Flaw::Missing.told("the fields end before a number of queries"));
    for (broken, place, flaw) in [
        ([&ONE_QUERY[..11], &[2, 0, 1, 0, 1]].concat(), "refused by 3 at bit 87 ", Flaw::QueryCount),
        (altered(&ONE_QUERY, 12, 1), "refused by 13 at bit 91 ", Flaw::UnknownBuffer),
        (altered(&ONE_QUERY, 13, 3), "refused by 3 at bit 94 ", Flaw::QueryKind),
    ] {
        let (error, image) = fields(&broken);
        assert!(error.starts_with(place) && error.ends_with(&format!(" [{}]", flaw.rule())), "{error}");
        assert!(image.is_empty());
    }
    let untested = "refused by 3 at bit 75 (byte 9, bit 3 of it): the number of tests of rule 0 is 0 ";
    assert!(fields(&[1, 1, 0, 1, 0, 0, 0, 0, 0, 0, 0]).0.starts_with(untested));
}

/// A text is told the same rules.
#[test]
fn texts_break_the_rules_of_images() {
    let found = "4:1: buffer 'gaol' is not declared (goal)";
    let error = packed(b"type t a\nbuffer goal\nrule r\n=gaol> t").0;
    assert_eq!(error, Flaw::UnknownBuffer.told(found));
}

#[test]
fn runs_are_those_of_the_library() {
    let (error, rows, events) = run(IMAGE, &[0, 0], &[], 1_000);
    let (rows, events) = (words(&rows), words(&events));
    assert_eq!((error.as_str(), rows.len(), events.len()), ("", 2 * ROW, 2 * 7 * 3));
    assert_eq!((&rows[..4], &rows[ROW..ROW + 4]), (&[9, 7, 7, 550][..], &[9, 7, 7, 550][..]));
    assert_eq!(events[..6], [50, 0, 0, 150, 1, 100]);
    let again = words(&run(IMAGE, &[0], &rows[3..ROW], 1_000).1);
    assert_eq!((again[..3].to_vec(), &again[3..]), (vec![9, 0, 0], &rows[3..ROW]));
}

#[test]
fn runs_that_cannot_be_made_are_told() {
    let version =
        "image 0: refused by 3 at bit 0 (byte 0, bit 0 of it): the version is 110 [the version must be 1 or 2]";
    assert_eq!(run(b"no image", &[0], &[], 1).0, version);
    let cut = "image 0: refused by 2 at bit 558 (byte 69, bit 6 of it): ";
    assert!(run(&IMAGE[..70], &[0], &[], 1).0.starts_with(cut));
    assert!(run(IMAGE, &[1], &[], 1).0.contains("not there"));
    assert!(run(IMAGE, &[0], &[0; STATE - 1], 1).0.contains("88 words"));
    assert!(run(IMAGE, &[0], &[65_536; STATE], 1).0.contains("65,535"));
    let mut broken = [0; STATE];
    broken[1] = 9;
    assert_eq!(words(&run(IMAGE, &[0], &broken, 1).1)[..2], [6, 0]);
}

/// The flag stands after the delay of its buffer: it is told, handed in again, and refused where it can be none.
#[test]
fn error_flags_go_in_and_out() {
    const FLAG: usize = 1 + 11 + 10;
    let after = |steps| words(&run(RETRY, &[0], &[], steps).1)[3..].to_vec();
    let flags: Vec<(u32, u32)> = (0..=5).map(|steps| (after(steps)[FLAG - 1], after(steps)[FLAG])).collect();
    assert_eq!(flags, [(0, 0), (200, 1), (0, 1), (100, 0), (0, 0), (0, 0)]);
    let again = words(&run(RETRY, &[0], &after(2), 1_000).1);
    assert_eq!((&again[..4], &again[4..]), (&[9, 3, 3, 450][..], &after(5)[1..]));
    let mut other = after(2);
    other[FLAG] = 2;
    assert_eq!(run(RETRY, &[0], &other, 1).0, "a word of state 0 is over 65,535, or a flag over 1");
    let mut beside = after(3);
    beside[FLAG] = 1;
    assert_eq!(words(&run(RETRY, &[0], &beside, 1).1)[..2], [6, 0]);
}

/// Each run has its store, or none, to itself; the goal that the counting model clears is count 3 3.
#[test]
fn runs_learn_what_they_clear_where_a_store_is_lent() {
    const NOTHING: u16 = u16::MAX;
    let goal = [2, 3, 3, 0, 0, 0, 0, 0, 0];
    let other = [1, 7, 8, 0, 0, 0, 0, 0, 0];
    let given = [&[0, NOTHING, 1][..], &other, &[1], &goal].concat();
    let left = [&[1][..], &goal, &[NOTHING, 2], &other, &goal, &[1], &goal].concat();
    for keep in [&[][..], &[1; 257]] {
        let (rows, events, learned) = learn(&[0; 4], &given, keep).expect("runs");
        assert_eq!(
            (rows.len(), events.len(), learned),
            (4 * ROW, if keep.is_empty() { 0 } else { 4 * 7 * 3 }, left.clone())
        );
        assert!(rows.chunks_exact(ROW).all(|row| row[..2] == [9, 7] && row[3] == 550));
    }
    let full = [&[256][..], &[1, 7, 8, 0, 0, 0, 0, 0, 0].repeat(256)].concat();
    let (rows, _, learned) = learn(&[0], &full, &[]).expect("a run");
    assert_eq!((&rows[..4], learned), (&[14, 5, 0, 350][..], full));
}

#[test]
fn stores_that_cannot_be_lent_are_told() {
    assert_eq!(learn(&[0], &[257], &[]), Err("the store of run 0 has 257 facts, and there are 256 places".into()));
    assert_eq!(learn(&[0; 2], &[0, 1, 2, 3], &[]), Err("the words end within the store of run 1".into()));
    assert_eq!(learn(&[0; 2], &[0], &[]), Err("1 stores are not one for each of 2 runs".into()));
    // a fact that the image could not hold is for the library to refuse, and stays as it is
    let unfit = [1, 3, 0, 0, 0, 0, 0, 0, 0, 0];
    let (rows, _, learned) = learn(&[0], &unfit, &[]).expect("a row");
    assert_eq!((&rows[..4], &learned[..]), (&[15, 0, 0, 0][..], &unfit[..]));
}

#[test]
fn a_stopped_call_begins_no_further_run() {
    assert_eq!(run_unless(&AtomicU8::new(1), IMAGE, &[0; 9], &[], 5), Default::default());
    assert_eq!(words(&run_unless(&AtomicU8::new(0), IMAGE, &[0; 9], &[], 5).1).len(), 9 * ROW);
}

#[test]
fn the_interface_has_its_number() {
    assert_eq!(jirvuntsag_packer_interface(), 3);
}
