//! A file of calls with what the references have for them, which tests/board/processors/replay.c makes again on other processors. For each call: its
//! function, what it reads, what it may write as it was, the code, and what it may write as it is left. A row is its length and its numbers; of the record's
//! entries, those after the last that is not 0 are left out. A number is in groups of seven bits, lowest first, with 128 added to all but the last. 0 for the
//! function ends the file; the count of calls follows.

use crate::board::{Call, Checked, Kept, Line};
use crate::table::{Rules, Table, ROW_LIMIT};
use std::fs::File;
use std::io::{BufWriter, Write};

/// Every so many calls one is written, if it fits.
const EVERY: u64 = 37;
/// The bytes that the rows of a call may take together: a small board has 16 kB of memory. A word is left for what stands behind the store, and a number
/// for what aligns it.
const ROOM: usize = 6144 - 8 - 4;

#[derive(Clone, Copy, Debug)]
pub enum Function {
    Check = 1,
    Start,
    Event,
    Frame,
    FrameTime,
    ReadFrame,
}

/// The bytes of one call, and how many its rows take in memory.
pub struct Entry {
    bytes: Vec<u8>,
    taken: usize,
}

impl Entry {
    fn number(&mut self, number: impl Into<u64>) {
        let mut rest = number.into();
        while rest >= 128 {
            self.bytes.push(rest as u8 | 128);
            rest >>= 7;
        }
        self.bytes.push(rest as u8);
    }

    fn numbers<T: Copy + Into<u64>>(&mut self, numbers: &[T]) {
        numbers.iter().for_each(|&number| self.number(number));
    }

    fn row<T: Copy + Into<u64>>(&mut self, numbers: &[T]) {
        self.taken += std::mem::size_of_val(numbers);
        self.number(numbers.len() as u64);
        self.numbers(numbers);
    }

    /// The record's entries, without the zeros at their end.
    fn entries<T: Copy + Into<u64>>(&mut self, numbers: &[T; ROW_LIMIT]) {
        let used = numbers.iter().rposition(|&number| number.into() != 0).map_or(0, |last| last + 1);
        self.number(used as u64);
        self.numbers(&numbers[..used]);
    }
}

/// What is written as numbers.
pub trait Written {
    fn to(&self, entry: &mut Entry);
}

impl<T: Copy + Into<u64>> Written for [T] {
    fn to(&self, entry: &mut Entry) {
        entry.row(self);
    }
}

impl Written for Table<'_> {
    fn to(&self, entry: &mut Entry) {
        entry.row(self.0);
    }
}

impl<T: Written + ?Sized> Written for &T {
    fn to(&self, entry: &mut Entry) {
        (*self).to(entry);
    }
}

impl<A: Written, B: Written> Written for (A, B) {
    fn to(&self, entry: &mut Entry) {
        self.0.to(entry);
        self.1.to(entry);
    }
}

impl Written for Rules<'_> {
    fn to(&self, entry: &mut Entry) {
        entry.row(self.table);
        entry.row(self.list);
    }
}

impl Written for u64 {
    fn to(&self, entry: &mut Entry) {
        entry.number(*self);
    }
}

impl Written for u16 {
    fn to(&self, entry: &mut Entry) {
        entry.number(*self);
    }
}

impl Written for Kept {
    fn to(&self, entry: &mut Entry) {
        self.store().to(entry);
        entry.number(self.record.seen);
        entry.number(self.record.clock);
        entry.number(self.record.last);
        entry.number(self.record.rows);
        entry.entries(&self.record.truths);
        entry.entries(&self.record.counts);
        entry.entries(&self.record.firsts);
    }
}

impl Written for Checked {
    fn to(&self, entry: &mut Entry) {
        entry.number(self.rows);
        entry.number(self.need);
    }
}

impl Written for Line {
    fn to(&self, entry: &mut Entry) {
        entry.number(self.place);
        entry.number(self.counter);
        entry.number(self.mask);
    }
}

impl Written for Call {
    fn to(&self, entry: &mut Entry) {
        match *self {
            Call::Event { time, mask } => entry.numbers(&[time, mask as u64]),
            Call::Frame { counter, mask } => entry.numbers(&[counter as u32, mask]),
        }
    }
}

/// The file, if one is asked for, and the counts of the calls made and written.
pub struct Calls {
    file: Option<BufWriter<File>>,
    made: u64,
    written: u64,
}

impl Calls {
    pub fn new(path: Option<String>) -> Calls {
        let file = path.map(|path| BufWriter::new(File::create(path).expect("the file of calls can be written")));
        Calls { file, made: 0, written: 0 }
    }

    pub fn call(&mut self, function: Function, given: &impl Written, before: &impl Written, code: u32, left: &impl Written) {
        self.made += 1;
        if self.made % EVERY != 0 {
            return;
        }
        let mut entry = Entry { bytes: Vec::new(), taken: 0 };
        entry.number(function as u32);
        given.to(&mut entry);
        before.to(&mut entry);
        let fits = entry.taken <= ROOM;
        entry.number(code);
        left.to(&mut entry);
        if fits {
            self.written += 1;
            self.write(&entry);
        }
    }

    /// Ends the file; gives the count of calls in it.
    pub fn end(&mut self) -> u64 {
        let mut entry = Entry { bytes: Vec::new(), taken: 0 };
        entry.numbers(&[0, self.written]);
        self.write(&entry);
        self.written
    }

    fn write(&mut self, entry: &Entry) {
        if let Some(file) = &mut self.file {
            file.write_all(&entry.bytes).expect("the file of calls can be written");
        }
    }
}
