//! The calls of the shared library. This is the one file that reads what is handed over by address.
#![allow(unsafe_code)]

use std::panic::{catch_unwind, UnwindSafe};
use std::sync::atomic::AtomicU8;

use crate::answer::Answer;
use crate::pack::{pack_fields, pack_text};
use crate::runs::{run_all, Runs};

/// What the calls below look like. It changes when they do.
const INTERFACE: u32 = 3;

/// What `jirvuntsag_packer_runs` is to run, as [`Runs`] says: addresses, each with how many things are there.
#[repr(C)]
#[derive(Clone, Copy, Debug)]
pub struct Batch {
    /// The images' bytes.
    pub images: *const u8,
    /// How many.
    pub images_len: usize,
    /// Where each image ends.
    pub ends: *const u32,
    /// How many images.
    pub ends_len: usize,
    /// The image of each run.
    pub jobs: *const u32,
    /// How many runs.
    pub jobs_len: usize,
    /// The words of the first states.
    pub states: *const u32,
    /// How many words: 89 for each run, or 0.
    pub states_len: usize,
    /// What the stores have learned before.
    pub stores: *const u16,
    /// How many words: one and nine for each fact, for each run, or 0.
    pub stores_len: usize,
    /// The flags of the events.
    pub keep: *const u8,
    /// How many flags: 257 for each image, or 0.
    pub keep_len: usize,
    /// The most steps of each run.
    pub steps: u16,
    /// A byte that another thread makes 1 where no further run is to be begun, or null.
    pub stop: *const AtomicU8,
}

/// The number of this interface.
#[no_mangle]
pub extern "C" fn jirvuntsag_packer_interface() -> u32 {
    INTERFACE
}

/// Packs a text: part 1 is the image, part 2 the names as JSON.
///
/// # Safety
/// `text` is the address of `length` bytes, or `length` is 0.
#[no_mangle]
pub unsafe extern "C" fn jirvuntsag_packer_text(text: *const u8, length: usize) -> *mut Answer {
    let text = unsafe { slice(text, length) };
    answered(move || pack_text(text))
}

/// Packs fields: part 1 is the image.
///
/// # Safety
/// `fields` is the address of `count` words of 16 bits, or `count` is 0.
#[no_mangle]
pub unsafe extern "C" fn jirvuntsag_packer_fields(fields: *const u16, count: usize) -> *mut Answer {
    let fields = unsafe { slice(fields, count) };
    answered(move || pack_fields(fields))
}

/// Makes runs: part 1 has 92 words for each, part 2 the events that are kept, part 3 what the stores have then. There are
/// fewer where it was stopped.
///
/// # Safety
/// `batch` is the address of a batch, and each address in it has as many things as it says, or it says 0; `stop` is null,
/// or the address of a byte that nobody frees before the call is done.
#[no_mangle]
pub unsafe extern "C" fn jirvuntsag_packer_runs(batch: *const Batch) -> *mut Answer {
    let batch = unsafe { batch.read() };
    let runs = unsafe {
        Runs {
            images: slice(batch.images, batch.images_len),
            ends: slice(batch.ends, batch.ends_len),
            jobs: slice(batch.jobs, batch.jobs_len),
            states: slice(batch.states, batch.states_len),
            stores: slice(batch.stores, batch.stores_len),
            keep: slice(batch.keep, batch.keep_len),
            steps: batch.steps,
            stop: batch.stop.as_ref(),
        }
    };
    answered(move || run_all(&runs))
}

/// Where a part of an answer stands until it is freed, and how long it is. Part 0 is the error, empty if there is none.
///
/// # Safety
/// `answer` was given by a call above and is not freed; `length` is the address of one length.
#[no_mangle]
pub unsafe extern "C" fn jirvuntsag_packer_part(answer: *const Answer, part: u32, length: *mut usize) -> *const u8 {
    let bytes = unsafe { &*answer }.part(part as usize);
    unsafe { length.write(bytes.len()) };
    bytes.as_ptr()
}

/// Frees an answer; null is nothing to free.
///
/// # Safety
/// `answer` was given by a call above and is not freed, or it is null.
#[no_mangle]
pub unsafe extern "C" fn jirvuntsag_packer_free(answer: *mut Answer) {
    if !answer.is_null() {
        drop(unsafe { Box::from_raw(answer) });
    }
}

/// The things at an address; none if there are none, whatever the address is.
///
/// # Safety
/// `at` is the address of `count` things that stay as they are during the call, or `count` is 0.
unsafe fn slice<'a, T>(at: *const T, count: usize) -> &'a [T] {
    match count {
        0 => &[],
        count => unsafe { std::slice::from_raw_parts(at, count) },
    }
}

/// The answer of a call, to be freed by the caller. A fault of the packer itself is an error like others.
fn answered(call: impl FnOnce() -> Result<Vec<Vec<u8>>, String> + UnwindSafe) -> *mut Answer {
    let result = catch_unwind(call).unwrap_or_else(|_| Err("the packer failed: this is a fault of its own".into()));
    Box::into_raw(Box::new(Answer::of(result)))
}
