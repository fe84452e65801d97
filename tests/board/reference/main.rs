//! Compares the library's functions for C with the two references, over a million calls, from a fixed seed: what each call answers, and all that it may
//! write as it is left. Ends at the first difference, which it prints with its input, or with the count of calls. Both references read a table and a list by
//! `table` and time a frame by `lines::time_of`; each finds dead rows in its own way. Given the name of a file, it writes some of the calls there; `calls`
//! tells how.

mod any_record;
mod board;
mod calls;
mod inputs;
mod lines;
mod meaning;
mod table;

use board::{Call, Kept};
use calls::{Calls, Function, Written};
use inputs::Random;
use meaning::History;
use std::fmt::Debug;
use table::{Rules, Table, TIME_LIMIT};

const SEED: u64 = 20_031_118;
const STREAMS: u64 = 10_000;
const STREAM_CALLS: u64 = 45;
const UNREACHED: u64 = 120_000;
const UNREACHED_CALLS: u64 = 2;
const TABLES: u64 = 80_000;
const TEXTS: u64 = 30_000;
const TIMES: u64 = 60_000;

/// Ends the program where the library's outcome is not the reference's.
fn same<T: PartialEq + Debug>(function: &dyn Debug, input: &dyn Debug, library: &T, reference: &T) {
    if library != reference {
        eprintln!("{function:?} differs\ninput     {input:?}\nlibrary   {library:?}\nreference {reference:?}");
        std::process::exit(1);
    }
}

/// One call of the library and of the reference, with what it reads and what it may write, compared; gives the code.
fn compare<G: Written + Copy + Debug, L: Written + Clone + PartialEq + Debug>(
    calls: &mut Calls,
    function: Function,
    given: G,
    left: &mut L,
    library: impl Fn(G, &mut L) -> u32,
    reference: impl Fn(G, &mut L) -> u32,
) -> u32 {
    let (before, mut meant) = (left.clone(), left.clone());
    let (code, meant_code) = (library(given, left), reference(given, &mut meant));
    same(&function, &(given, &before), &(code, &*left), &(meant_code, &meant));
    calls.call(function, &given, &before, meant_code, &meant);
    code
}

fn compare_start(calls: &mut Calls, rules: Rules, kept: &mut Kept) {
    compare(calls, Function::Start, rules, kept, board::start, any_record::start);
}

fn compare_call(calls: &mut Calls, rules: Rules, kept: &mut Kept, call: Call) -> u32 {
    let function = match call {
        Call::Event { .. } => Function::Event,
        Call::Frame { .. } => Function::Frame,
    };
    compare(calls, function, (rules, call), kept, board::call, any_record::call)
}

/// Streams from a start: both references, after the start and after each call. Some calls have another list than the start: one that leaves no row dead,
/// one that may, or one that does not pass.
fn streams(random: &mut Random, calls: &mut Calls) {
    for _ in 0..STREAMS {
        let table = inputs::table(random);
        let rows = table::check(&table).expect("a table that passes");
        let need = table::need(&rows) as usize;
        let size = need as u64 + random.below(4);
        let listed = inputs::list(random, &table);
        let mut kept = Kept::new(inputs::words(random, size), inputs::any_record(random));
        compare_start(calls, Rules { table: &table, list: &listed }, &mut kept);
        let mut history = History::start(rows);
        let mut clock = inputs::base(random);
        for _ in 0..STREAM_CALLS {
            let call = inputs::call(random, clock);
            let mut list = match random.below(16) {
                0 | 1 => inputs::list(random, &table),
                2 => inputs::any_list(random, &table),
                _ => listed.clone(),
            };
            if random.once_in(24) {
                inputs::damage_list(random, &mut list, &table);
            }
            let rules = Rules { table: &table, list: &list };
            let before = kept.clone();
            let code = compare_call(calls, rules, &mut kept, call);
            let meant_code = history.call(&list, call);
            let (record, words) = history.record_and_words();
            let left = (code, kept.record, &kept.store()[..need]);
            same(&"by the meaning, a call", &(rules, &before, call), &left, &(meant_code, record, &words[..]));
            clock = if record.clock > 0 { record.clock } else { clock };
        }
    }
}

/// Records that are sound but perhaps not reached, damaged records, stores, tables and lists, and lists that leave rows dead.
fn unreached(random: &mut Random, calls: &mut Calls) {
    for _ in 0..UNREACHED {
        let mut table = inputs::table(random);
        let rows = table::check(&table).expect("a table that passes");
        let spare = random.below(3);
        let (mut record, mut store) = inputs::sound_record(random, &rows, spare);
        let clock = record.clock;
        match random.below(8) {
            0..=2 => inputs::damage_record(random, &rows, &mut record, &mut store),
            3 => inputs::damage_table(random, &mut table),
            4 => store.truncate(random.below(store.len() as u64 + 1) as usize),
            5 => table = inputs::table(random),
            _ => {}
        }
        let mut list = if random.once_in(10) { inputs::any_list(random, &table) } else { inputs::list(random, &table) };
        if random.once_in(6) {
            inputs::damage_list(random, &mut list, &table);
        }
        let mut kept = Kept::new(store, record);
        for _ in 0..UNREACHED_CALLS {
            let call = inputs::call(random, clock.max(kept.record.clock));
            compare_call(calls, Rules { table: &table, list: &list }, &mut kept, call);
        }
    }
}

/// Checks and starts of tables, good and damaged, with lists that leave no row dead, that may and that do not pass, on stores that are long enough
/// and too short.
fn tables(random: &mut Random, calls: &mut Calls) {
    for _ in 0..TABLES {
        let mut table = inputs::table(random);
        for _ in 0..random.below(3) {
            if !table.is_empty() {
                inputs::damage_table(random, &mut table);
            }
        }
        let mut checked = inputs::any_checked(random);
        let code = compare(calls, Function::Check, Table(&table), &mut checked, board::check, any_record::check);
        let need = if code == 0 { checked.need.min(2_000) } else { 0 };
        let size = need + random.below(3);
        let words = inputs::words(random, size.saturating_sub(1));
        let mut list = if random.once_in(4) { inputs::any_list(random, &table) } else { inputs::list(random, &table) };
        if random.once_in(3) {
            inputs::damage_list(random, &mut list, &table);
        }
        compare_start(calls, Rules { table: &table, list: &list }, &mut Kept::new(words, inputs::any_record(random)));
    }
}

/// Texts, good and damaged, read from places in them and past their end.
fn texts(random: &mut Random, calls: &mut Calls) {
    for _ in 0..TEXTS {
        let text = inputs::text(random);
        let read =
            |calls: &mut Calls, line: &mut board::Line| compare(calls, Function::ReadFrame, &text[..], line, board::read_frame, lines::read_frame);
        let mut line = inputs::any_line(random, 0);
        while read(calls, &mut line) != lines::END {}
        for place in [random.below(text.len() as u64 + 3), random.word(), u64::MAX] {
            read(calls, &mut inputs::any_line(random, place));
        }
    }
}

/// Times of frames, after any clock.
fn times(random: &mut Random, calls: &mut Calls) {
    for _ in 0..TIMES {
        let (base, any) = (inputs::base(random), random.word());
        let clock = random.pick(&[base, base, any, TIME_LIMIT - 1, TIME_LIMIT, TIME_LIMIT + 1, u64::MAX]);
        let counter = random.pick(&[0, 1, u16::MAX, clock as u16, (clock as u16).wrapping_sub(1), any as u16]);
        compare(calls, Function::FrameTime, (clock, counter), &mut random.word(), board::frame_time, lines::frame_time);
    }
}

fn main() {
    let mut calls = Calls::new(std::env::args().nth(1));
    let mut random = Random::new(SEED);
    for part in [streams, unreached, tables, texts, times] {
        part(&mut random, &mut calls);
    }
    println!("{} calls as the references have them", board::calls());
    println!("{} calls written", calls.end());
}
