//! The library's functions for C, as include/muktrashi.h declares them, with each call counted. Each is a function of what it reads and of what it may
//! write, and gives the code; the references have the same functions.

use crate::table::{Rules, Table, ROW_LIMIT};
use std::sync::atomic::{AtomicU64, Ordering};

#[repr(C)]
#[derive(Clone, Copy, PartialEq, Debug)]
pub struct Record {
    pub seen: u8,
    pub clock: u64,
    pub last: u64,
    pub rows: u32,
    pub truths: [u8; ROW_LIMIT],
    pub counts: [u32; ROW_LIMIT],
    pub firsts: [u32; ROW_LIMIT],
}

impl Record {
    pub const ZERO: Record = Record { seen: 0, clock: 0, last: 0, rows: 0, truths: [0; ROW_LIMIT], counts: [0; ROW_LIMIT], firsts: [0; ROW_LIMIT] };
}

/// Words behind the lent store that must stay as they are.
const GUARD: [u64; 2] = [0x5A5A_5A5A_5A5A_5A5A, 0xA5A5_A5A5_A5A5_A5A5];

/// What the monitor writes: the words of the store, with the guard behind them, and the record.
#[derive(Clone, PartialEq, Debug)]
pub struct Kept {
    words: Vec<u64>,
    pub record: Record,
}

impl Kept {
    pub fn new(mut words: Vec<u64>, record: Record) -> Kept {
        words.extend(GUARD);
        Kept { words, record }
    }

    pub fn store(&self) -> &[u64] {
        &self.words[..self.words.len() - GUARD.len()]
    }

    pub fn lent(&mut self) -> (&mut [u64], &mut Record) {
        let size = self.store().len();
        (&mut self.words[..size], &mut self.record)
    }
}

/// What a table check writes.
#[derive(Clone, PartialEq, Debug)]
pub struct Checked {
    pub rows: u32,
    pub need: u64,
}

/// What reading a line writes.
#[derive(Clone, PartialEq, Debug)]
pub struct Line {
    pub place: u64,
    pub counter: u16,
    pub mask: u32,
}

/// A mask with this bit makes its call a heartbeat.
pub const HEARTBEAT: u32 = 1 << 31;

/// The code of "clock moved".
pub const MOVED: u32 = 1 << 31;

/// What is handed to the monitor: an event by its time, or a frame by its counter; a heartbeat by its mask.
#[derive(Clone, Copy, PartialEq, Debug)]
pub enum Call {
    Event { time: u64, mask: u32 },
    Frame { counter: u16, mask: u32 },
}

extern "C" {
    fn muk_check(table: *const u32, table_len: u64, rows: *mut u32, need: *mut u64) -> u32;
    fn muk_start(table: *const u32, table_len: u64, list: *const u32, list_len: u64, store: *mut u64, store_len: u64, record: *mut Record) -> u32;
    fn muk_event(
        table: *const u32,
        table_len: u64,
        list: *const u32,
        list_len: u64,
        store: *mut u64,
        store_len: u64,
        record: *mut Record,
        time: u64,
        mask: u32,
    ) -> u32;
    fn muk_frame(
        table: *const u32,
        table_len: u64,
        list: *const u32,
        list_len: u64,
        store: *mut u64,
        store_len: u64,
        record: *mut Record,
        counter: u16,
        mask: u32,
    ) -> u32;
    fn muk_frame_time(clock: u64, counter: u16, time: *mut u64) -> u32;
    fn muk_read_frame(text: *const u8, text_len: u64, place: *mut u64, counter: *mut u16, mask: *mut u32) -> u32;
}

static CALLS: AtomicU64 = AtomicU64::new(0);

fn count() {
    CALLS.fetch_add(1, Ordering::Relaxed);
}

/// How many calls were made.
pub fn calls() -> u64 {
    CALLS.load(Ordering::Relaxed)
}

/// A lent slice as C lends it: where it is empty, by a null pointer.
fn lent<T>(slice: &[T]) -> (*const T, u64) {
    let pointer = if slice.is_empty() { std::ptr::null() } else { slice.as_ptr() };
    (pointer, slice.len() as u64)
}

fn lent_to_write(kept: &mut Kept) -> (*mut u64, u64, *mut Record) {
    let (store, record) = kept.lent();
    let pointer = if store.is_empty() { std::ptr::null_mut() } else { store.as_mut_ptr() };
    (pointer, store.len() as u64, record)
}

pub fn check(Table(table): Table, checked: &mut Checked) -> u32 {
    count();
    let (table, numbers) = lent(table);
    unsafe { muk_check(table, numbers, &mut checked.rows, &mut checked.need) }
}

pub fn start(rules: Rules, kept: &mut Kept) -> u32 {
    count();
    let ((table, numbers), (list, listed), (store, words, record)) = (lent(rules.table), lent(rules.list), lent_to_write(kept));
    unsafe { muk_start(table, numbers, list, listed, store, words, record) }
}

pub fn call((rules, call): (Rules, Call), kept: &mut Kept) -> u32 {
    count();
    let ((table, numbers), (list, listed), (store, words, record)) = (lent(rules.table), lent(rules.list), lent_to_write(kept));
    unsafe {
        match call {
            Call::Event { time, mask } => muk_event(table, numbers, list, listed, store, words, record, time, mask),
            Call::Frame { counter, mask } => muk_frame(table, numbers, list, listed, store, words, record, counter, mask),
        }
    }
}

pub fn frame_time((clock, counter): (u64, u16), time: &mut u64) -> u32 {
    count();
    unsafe { muk_frame_time(clock, counter, time) }
}

pub fn read_frame(text: &[u8], line: &mut Line) -> u32 {
    count();
    let (text, bytes) = lent(text);
    unsafe { muk_read_frame(text, bytes, &mut line.place, &mut line.counter, &mut line.mask) }
}
