//! The functions of `include/jirvuntsag.h`, each behind a safe one: a slice is handed over as its address and its length.
//! And those that the benchmark times, of `crates/bench_fetch`, if they are asked for.
#![allow(unsafe_code)]

use crate::words::STATE;

extern "C" {
    fn jirvuntsag_table_len(image: *const u8, image_len: usize) -> u64;
    fn jirvuntsag_open(
        image: *const u8,
        image_len: usize,
        table: *mut u16,
        table_len: usize,
        state: *mut [u32; STATE],
    ) -> u64;
    fn jirvuntsag_run(
        image: *const u8,
        image_len: usize,
        state: *mut [u32; STATE],
        table: *mut u16,
        table_len: usize,
        steps: u16,
    ) -> u64;
    fn jirvuntsag_trace(
        image: *const u8,
        image_len: usize,
        state: *mut [u32; STATE],
        table: *mut u16,
        table_len: usize,
        steps: u16,
        events: *mut u32,
        events_len: usize,
    ) -> u64;
    fn jirvuntsag_refresh(
        image: *const u8,
        image_len: usize,
        state: *const [u32; STATE],
        mark: u16,
        table: *mut u16,
        table_len: usize,
    ) -> u64;
    fn jirvuntsag_run_fresh(image: *const u8, image_len: usize, state: *mut [u32; STATE], steps: u16) -> u64;
    fn jirvuntsag_trace_fresh(
        image: *const u8,
        image_len: usize,
        state: *mut [u32; STATE],
        steps: u16,
        events: *mut u32,
        events_len: usize,
    ) -> u64;
    fn jirvuntsag_run_lent(
        image: *const u8,
        image_len: usize,
        state: *mut [u32; STATE],
        table: *mut u16,
        table_len: usize,
        steps: u16,
        events: *mut u32,
        events_len: usize,
        lent: u16,
        store: *mut u16,
        store_len: usize,
    ) -> u64;
    fn jirvuntsag_run_fresh_lent(
        image: *const u8,
        image_len: usize,
        state: *mut [u32; STATE],
        steps: u16,
        events: *mut u32,
        events_len: usize,
        lent: u16,
        store: *mut u16,
        store_len: usize,
    ) -> u64;
}

// Safety, of each call below: addresses and lengths are those of Rust's own slices, borrowed for the call, and what is
// written is borrowed alone. The library asks for nothing else: it takes all contents.

pub fn table_len(image: &[u8]) -> u64 {
    unsafe { jirvuntsag_table_len(image.as_ptr(), image.len()) }
}

pub fn open(image: &[u8], table: &mut [u16], state: &mut [u32; STATE]) -> u64 {
    unsafe { jirvuntsag_open(image.as_ptr(), image.len(), table.as_mut_ptr(), table.len(), state) }
}

pub fn run(image: &[u8], state: &mut [u32; STATE], table: &mut [u16], steps: u16) -> u64 {
    unsafe { jirvuntsag_run(image.as_ptr(), image.len(), state, table.as_mut_ptr(), table.len(), steps) }
}

pub fn trace(image: &[u8], state: &mut [u32; STATE], table: &mut [u16], steps: u16, events: &mut [u32]) -> u64 {
    let (image, image_len) = (image.as_ptr(), image.len());
    let (table, table_len) = (table.as_mut_ptr(), table.len());
    unsafe { jirvuntsag_trace(image, image_len, state, table, table_len, steps, events.as_mut_ptr(), events.len()) }
}

pub fn refresh(image: &[u8], state: &[u32; STATE], mark: u16, table: &mut [u16]) -> u64 {
    unsafe { jirvuntsag_refresh(image.as_ptr(), image.len(), state, mark, table.as_mut_ptr(), table.len()) }
}

pub fn run_fresh(image: &[u8], state: &mut [u32; STATE], steps: u16) -> u64 {
    unsafe { jirvuntsag_run_fresh(image.as_ptr(), image.len(), state, steps) }
}

pub fn trace_fresh(image: &[u8], state: &mut [u32; STATE], steps: u16, events: &mut [u32]) -> u64 {
    unsafe { jirvuntsag_trace_fresh(image.as_ptr(), image.len(), state, steps, events.as_mut_ptr(), events.len()) }
}

/// What is lent to a run beside state and table: a word that says what, and the words of a store, which are neither read nor
/// written if it does not say a store.
pub struct Lent<'a> {
    pub word: u16,
    pub store: &'a mut [u16],
}

impl<'a> Lent<'a> {
    /// The bit of the word that says a store.
    const STORE: u16 = 1;

    /// A store, if there is one.
    pub fn of(store: Option<&'a mut [u16]>) -> Lent<'a> {
        match store {
            Some(store) => Lent { word: Lent::STORE, store },
            None => Lent { word: 0, store: &mut [] },
        }
    }
}

pub fn run_lent(
    image: &[u8],
    state: &mut [u32; STATE],
    table: &mut [u16],
    steps: u16,
    events: &mut [u32],
    lent: Lent,
) -> u64 {
    let (image, image_len) = (image.as_ptr(), image.len());
    let (table, table_len) = (table.as_mut_ptr(), table.len());
    let (events, events_len) = (events.as_mut_ptr(), events.len());
    let (word, store, store_len) = (lent.word, lent.store.as_mut_ptr(), lent.store.len());
    unsafe {
        jirvuntsag_run_lent(
            image, image_len, state, table, table_len, steps, events, events_len, word, store, store_len,
        )
    }
}

pub fn run_fresh_lent(image: &[u8], state: &mut [u32; STATE], steps: u16, events: &mut [u32], lent: Lent) -> u64 {
    let (image, image_len) = (image.as_ptr(), image.len());
    let (events, events_len) = (events.as_mut_ptr(), events.len());
    let (word, store, store_len) = (lent.word, lent.store.as_mut_ptr(), lent.store.len());
    unsafe { jirvuntsag_run_fresh_lent(image, image_len, state, steps, events, events_len, word, store, store_len) }
}

#[cfg(feature = "bench")]
extern "C" {
    fn jirvuntsag_bench_field(image: *const u8, image_len: usize, at: usize, width: usize) -> u32;
    fn jirvuntsag_bench_field_singly(image: *const u8, image_len: usize, at: usize, width: usize) -> u32;
    fn jirvuntsag_bench_open(
        image: *const u8,
        image_len: usize,
        table: *mut u16,
        table_len: usize,
        state: *mut [u32; STATE],
    ) -> u64;
    fn jirvuntsag_bench_open_singly(
        image: *const u8,
        image_len: usize,
        table: *mut u16,
        table_len: usize,
        state: *mut [u32; STATE],
    ) -> u64;
}

#[cfg(feature = "bench")]
pub fn bench_field(image: &[u8], at: usize, width: usize) -> u32 {
    unsafe { jirvuntsag_bench_field(image.as_ptr(), image.len(), at, width) }
}

#[cfg(feature = "bench")]
pub fn bench_field_singly(image: &[u8], at: usize, width: usize) -> u32 {
    unsafe { jirvuntsag_bench_field_singly(image.as_ptr(), image.len(), at, width) }
}

#[cfg(feature = "bench")]
pub fn bench_open(image: &[u8], table: &mut [u16], state: &mut [u32; STATE]) -> u64 {
    unsafe { jirvuntsag_bench_open(image.as_ptr(), image.len(), table.as_mut_ptr(), table.len(), state) }
}

#[cfg(feature = "bench")]
pub fn bench_open_singly(image: &[u8], table: &mut [u16], state: &mut [u32; STATE]) -> u64 {
    unsafe { jirvuntsag_bench_open_singly(image.as_ptr(), image.len(), table.as_mut_ptr(), table.len(), state) }
}
