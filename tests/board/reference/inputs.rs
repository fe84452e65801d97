//! Inputs, from a fixed seed: tables, lists that leave rows dead and lists that do not, times, masks, heartbeats, sound records that no stream reaches,
//! texts, and damage to each.

use crate::any_record::{stretches, NO_LAST};
use crate::board::{Call, Checked, Line, Record, HEARTBEAT};
use crate::table::{self, Formula, Interval, BITS, KINDS, LIST_LIMIT, LONGEST, NO_END, ROW_LIMIT, TIME_LIMIT};

/// A generator of numbers (splitmix64).
pub struct Random(u64);

impl Random {
    pub fn new(seed: u64) -> Random {
        Random(seed)
    }

    pub fn word(&mut self) -> u64 {
        self.0 = self.0.wrapping_add(0x9E37_79B9_7F4A_7C15);
        let mut z = self.0;
        z = (z ^ z >> 30).wrapping_mul(0xBF58_476D_1CE4_E5B9);
        z = (z ^ z >> 27).wrapping_mul(0x94D0_49BB_1331_11EB);
        z ^ z >> 31
    }

    /// A number below n.
    pub fn below(&mut self, n: u64) -> u64 {
        self.word() % n
    }

    /// A number from low to high.
    pub fn between(&mut self, low: u64, high: u64) -> u64 {
        low + self.below(high - low + 1)
    }

    /// Yes once in n times.
    pub fn once_in(&mut self, n: u64) -> bool {
        self.below(n) == 0
    }

    pub fn pick<T: Copy>(&mut self, of: &[T]) -> T {
        of[self.below(of.len() as u64) as usize]
    }
}

/// The bits that rules and masks use most.
const BUSY_BITS: u64 = 3;

/// Limits that pass, mostly short ones, so that many events fall at their ends.
fn limits(random: &mut Random) -> (u32, u32) {
    let far = [(100, 200), (20, 20), (600, 600), (0, LONGEST), (40_000_000, LONGEST), (LONGEST, NO_END), (1000, NO_END), (65_530, 65_545)];
    match random.below(12) {
        0 => random.pick(&far),
        1 => (0, 0),
        2 | 3 => (random.below(8) as u32, NO_END),
        4 | 5 => {
            let a = random.below(12) as u32;
            (a, a)
        }
        _ => {
            let a = random.below(8) as u32;
            (a, a + random.below(6) as u32)
        }
    }
}

/// A table that passes the check and that some list reaches: at most as many of its rows are named by none as a list names, often only the last.
pub fn table(random: &mut Random) -> Vec<u32> {
    let rows = if random.once_in(40) { random.between(1, ROW_LIMIT as u64) } else { random.between(1, 10) } as u32;
    let any = random.between(1, LIST_LIMIT as u64) as usize;
    let most_unnamed = random.pick(&[1, 1, 2, any, LIST_LIMIT]);
    let mut unnamed: Vec<u32> = Vec::new();
    let mut table = Vec::new();
    for row in 0..rows {
        let (any, busy) = (random.below(BITS as u64) as u32, random.below(BUSY_BITS) as u32);
        let bit = random.pick(&[busy, busy, busy, busy, busy, busy, any, BITS - 1]);
        let full = unnamed.len() == most_unnamed;
        let names_rows = row > 0 && (full || !random.once_in(6));
        let kind = if names_rows { random.pick(&[2, 3, 4, 5, 5, 6, 6, 6, 7, 7, 7, 8, 8, 8]) } else { random.pick(&[0, 1, 1]) };
        let names_two = matches!(kind, 3 | 4 | 6);
        let [mut x, mut y] = [(); 2].map(|_| if row == 0 { 0 } else { random.below(row as u64) as u32 });
        if names_rows && (full || random.once_in(3)) {
            let lower = random.pick(&unnamed);
            if names_two && random.once_in(2) {
                y = lower;
            } else {
                x = lower;
            }
        }
        let (a, b) = limits(random);
        table.extend(match kind {
            0 => [0, 0, 0, 0, 0],
            1 => [1, bit, 0, 0, 0],
            2 => [2, x, 0, 0, 0],
            3 | 4 => [kind, x, y, 0, 0],
            6 => [6, x, y, a, b],
            _ => [kind, x, 0, a, b],
        });
        unnamed.retain(|&lower| !(names_rows && lower == x || names_two && lower == y));
        unnamed.push(row);
    }
    table
}

/// One number of a table changed, or its length.
pub fn damage_table(random: &mut Random, table: &mut Vec<u32>) {
    let place = random.below(table.len() as u64) as usize;
    match random.below(9) {
        0 => table.truncate(place),
        1 => {
            let zeros = random.between(1, 5 * (ROW_LIMIT as u64 + 2)) as usize;
            table.extend(vec![0; zeros]);
        }
        2 => {
            let multiple = 5 * random.between(ROW_LIMIT as u64 - 1, ROW_LIMIT as u64 + 2) as usize;
            table.resize(multiple, 0);
        }
        3 => table[place] = random.pick(&[KINDS - 1, KINDS, LONGEST, LONGEST + 1, NO_END - 1, NO_END]),
        4 => {
            let x = (place / 5 * 5 + 1).min(table.len() - 1);
            table[x] = random.pick(&[BITS - 1, BITS, BITS + 1]);
        }
        5 => table[place] = random.word() as u32,
        6 => table[place] = (place / 5) as u32,
        _ => table[place] = table[place].wrapping_add(random.pick(&[1, u32::MAX])),
    }
}

/// The row count of a table, if its length passes.
fn row_count(table: &[u32]) -> usize {
    (table.len() / 5).clamp(1, ROW_LIMIT)
}

/// The rows that no row of a table names, if it passes the check.
fn unnamed_rows(table: &[u32]) -> Vec<u32> {
    let rows = table::check(table).unwrap_or_default();
    let mut unnamed = vec![true; rows.len()];
    rows.iter().flat_map(Formula::lower).for_each(|lower| unnamed[lower] = false);
    (0..).zip(unnamed).filter_map(|(row, unnamed)| unnamed.then_some(row)).collect()
}

/// So many of the numbers below `rows`, rising.
fn numbers_below(random: &mut Random, rows: usize, count: usize) -> Vec<u32> {
    let mut numbers: Vec<u32> = (0..rows as u32).collect();
    while numbers.len() > count {
        numbers.remove(random.below(numbers.len() as u64) as usize);
    }
    numbers
}

/// A list that leaves no row dead, of a table that some list reaches: the rows that no row names, and perhaps others; often of the fewest that there can be,
/// and of the most.
pub fn list(random: &mut Random, table: &[u32]) -> Vec<u32> {
    let mut list = unnamed_rows(table);
    if list.is_empty() || list.len() > LIST_LIMIT {
        return any_list(random, table);
    }
    let most = row_count(table).min(LIST_LIMIT);
    let any = random.between(list.len() as u64, most as u64) as usize;
    let count = random.pick(&[list.len(), any, most]);
    while list.len() < count {
        list.push(random.below(row_count(table) as u64) as u32);
        list.sort();
        list.dedup();
    }
    list
}

/// A list that may leave rows dead, of a table that passes; often of one row, and of the most that there can be.
pub fn any_list(random: &mut Random, table: &[u32]) -> Vec<u32> {
    let rows = row_count(table);
    let most = rows.min(LIST_LIMIT);
    let any = random.between(1, most as u64) as usize;
    let count = random.pick(&[1, any, any, most]);
    numbers_below(random, rows, count)
}

/// One number of a list changed, or its length: no number, too many, equal neighbours, not rising, at the row count and over it.
pub fn damage_list(random: &mut Random, list: &mut Vec<u32>, table: &[u32]) {
    let rows = row_count(table);
    let (place, end) = (random.below(list.len() as u64) as usize, list.len() - 1);
    let (number, last, any) = (list[place], list[end], random.word() as u32);
    match random.below(8) {
        0 => list.clear(),
        1 => {
            let count = LIST_LIMIT + random.pick(&[1, 1, 2, 17]);
            *list = numbers_below(random, rows.max(count), count);
        }
        2 => list.insert(place, number),
        3 => list.swap(place, end),
        4 => list[end] = rows as u32,
        // Narrower numbers would read some of these as rows.
        5 => list[end] = random.pick(&[rows as u32 + 1, last | 1 << 8, last | 1 << 16, last | 1 << 31, u32::MAX - 1, u32::MAX]),
        6 => list[place] = number.wrapping_add(random.pick(&[1, u32::MAX])),
        _ => list[place] = any,
    }
}

/// Words of any content.
pub fn words(random: &mut Random, count: u64) -> Vec<u64> {
    (0..count).map(|_| if random.once_in(2) { random.word() } else { random.pick(&[0, 1, u64::MAX]) }).collect()
}

/// A record of any content, as it may stand before a start.
pub fn any_record(random: &mut Random) -> Record {
    let (clock, last, byte, count, first) = (random.word(), random.word(), random.word() as u8, random.word() as u32, random.word() as u32);
    Record { seen: byte, clock, last, rows: count, truths: [byte; ROW_LIMIT], counts: [count; ROW_LIMIT], firsts: [first; ROW_LIMIT] }
}

/// Numbers of any content, as they may stand where a table check writes.
pub fn any_checked(random: &mut Random) -> Checked {
    Checked { rows: random.word() as u32, need: random.word() }
}

/// Numbers of any content, as they may stand where a line is read from a place.
pub fn any_line(random: &mut Random, place: u64) -> Line {
    Line { place, counter: random.word() as u16, mask: random.word() as u32 }
}

/// A mask, one in four of a heartbeat.
fn mask(random: &mut Random) -> u32 {
    let pads = if random.once_in(20) { random.word() as u32 & !HEARTBEAT } else { random.below(1 << BUSY_BITS) as u32 };
    if random.once_in(4) {
        pads | HEARTBEAT
    } else {
        pads
    }
}

/// A call after the time `clock`: equal times, times near the limits of the rows, times below and over the limit.
pub fn call(random: &mut Random, clock: u64) -> Call {
    let mask = mask(random);
    if random.once_in(3) {
        let (short, long) = (random.below(20), random.below(65_536));
        let gap = random.pick(&[0, 1, 1, 2, 3, short, long]);
        return Call::Frame { counter: (clock.wrapping_add(gap)) as u16, mask };
    }
    let any = random.word();
    let time = match random.below(16) {
        0..=3 => clock,
        4..=10 => clock.wrapping_add(random.between(1, 4)),
        11 | 12 => clock.wrapping_add(random.below(24)),
        13 => clock.wrapping_add(random.pick(&[100, 200, 600, 1000, LONGEST as u64, LONGEST as u64 + 1, 65_536, 65_546])),
        14 => clock.saturating_sub(random.between(1, 3)),
        _ => random.pick(&[clock, clock, TIME_LIMIT, TIME_LIMIT + 1, u64::MAX, any]),
    };
    Call::Event { time, mask }
}

/// A time to begin at: small, or near the limit.
pub fn base(random: &mut Random) -> u64 {
    match random.below(6) {
        0 => TIME_LIMIT - random.below(60),
        1 => random.below(TIME_LIMIT),
        2 => 65_536 - random.below(10),
        _ => random.below(20),
    }
}

/// Spans that are sound at this clock and this time of the last event, of at most the row's figure; often at the ends of what is sound.
fn sound_spans(random: &mut Random, interval: Interval, clock: u64, event: u64) -> Vec<(u64, u64)> {
    let mut spans = Vec::new();
    let latest_first = event + interval.a;
    let b = match interval.b {
        Some(b) => b,
        None => {
            if random.once_in(2) {
                let latest = clock.max(latest_first);
                let any = random.between(clock, latest);
                spans.push((random.pick(&[clock, latest, any]), NO_LAST));
            }
            return spans;
        }
    };
    let latest = event + b;
    let mut lowest = clock + 1;
    if clock <= latest && random.once_in(2) {
        let (short, any) = (random.below(3).min(latest - clock), random.between(clock, latest));
        let last = random.pick(&[clock + short, clock + short, any, latest]);
        spans.push((clock, last));
        lowest = last + 2;
    }
    while lowest <= latest_first && (spans.len() as u64) < interval.spans() && !random.once_in(5) {
        let first = lowest + if random.once_in(2) { 0 } else { random.below((latest_first - lowest + 1).min(4)) };
        let shortest = first + (b - interval.a);
        let last = if random.once_in(3) { random.between(shortest, latest) } else { shortest };
        spans.push((first, last));
        lowest = last + 2;
    }
    spans
}

/// A sound record of a table, which perhaps no stream reaches, with its store. A stretch begins at any place, often at its ends.
pub fn sound_record(random: &mut Random, rows: &[Formula], spare: u64) -> (Record, Vec<u64>) {
    let mut record = Record { rows: rows.len() as u32, ..Record::ZERO };
    let mut store = vec![0; table::need(rows) as usize];
    store.extend(words(random, spare));
    record.clock = base(random);
    if random.once_in(10) {
        return (record, store);
    }
    record.seen = 1;
    let (short, any) = (random.below(12), random.below(record.clock + 1));
    record.last = record.clock.saturating_sub(random.pick(&[0, 0, 1, short, short, any]));
    for truth in &mut record.truths[..rows.len()] {
        *truth = random.below(2) as u8;
    }
    for (row, interval, place) in stretches(rows) {
        let spans = sound_spans(random, interval, record.clock, record.last);
        if spans.is_empty() {
            continue;
        }
        let (places, any) = (interval.spans(), random.below(interval.spans()));
        let begin = random.pick(&[0, any, any, places - 1]);
        record.counts[row] = spans.len() as u32;
        record.firsts[row] = begin as u32;
        for (index, (first, last)) in (begin..).zip(spans) {
            let word = place + 2 * (index % places) as usize;
            store[word] = first;
            store[word + 1] = last;
        }
    }
    (record, store)
}

/// One field of a record or one word of a store changed, or a ring.
pub fn damage_record(random: &mut Random, table: &[Formula], record: &mut Record, store: &mut [u64]) {
    if random.once_in(3) {
        return damage_ring(random, table, record, store);
    }
    let rows = (record.rows as usize).clamp(1, ROW_LIMIT);
    let row = if random.once_in(8) { random.below(ROW_LIMIT as u64) } else { random.below(rows as u64) } as usize;
    let near = random.pick(&[1, 1, 2, u64::MAX, u64::MAX, u64::MAX - 1]);
    let (clock, last) = (record.clock, record.last);
    match random.below(if store.is_empty() { 11 } else { 20 }) {
        0 => record.seen = random.pick(&[0, 1, 2, 255]),
        // The spans of an event that was not seen.
        1 => *record = Record { seen: 0, last: 0, truths: [0; ROW_LIMIT], ..*record },
        2 | 3 => record.clock = random.pick(&[0, last, TIME_LIMIT, TIME_LIMIT + 1, u64::MAX, clock.wrapping_add(near)]),
        4 | 5 => record.last = random.pick(&[0, clock, clock.wrapping_add(1), TIME_LIMIT + 1, u64::MAX, last.wrapping_add(near)]),
        6 => record.rows = random.pick(&[0, ROW_LIMIT as u32, ROW_LIMIT as u32 + 1, u32::MAX, record.rows.wrapping_add(near as u32)]),
        7 | 8 => record.truths[row] = random.pick(&[0, 1, 2, 128, 255]),
        9 | 10 => record.counts[row] = random.pick(&[0, 1, u32::MAX, record.counts[row].wrapping_add(near as u32)]),
        11 => {
            let (place, any) = (random.below(store.len() as u64) as usize, random.word());
            store[place] = random.pick(&[0, 1, NO_LAST, clock, any]);
        }
        _ => {
            let used: Vec<usize> = (0..store.len()).filter(|&place| store[place] != 0).collect();
            let place = if used.is_empty() { random.below(store.len() as u64) as usize } else { random.pick(&used) };
            store[place] = store[place].wrapping_add(near);
        }
    }
}

/// A row's first place changed, or what stands in its stretch. Most of this is wrong by one thing alone.
fn damage_ring(random: &mut Random, table: &[Formula], record: &mut Record, store: &mut [u64]) {
    let stretches = stretches(table);
    let any = random.word() as u32;
    if stretches.is_empty() || random.once_in(6) {
        // A row that owns no stretch, or one past the table's, often at their ends.
        let plain = (0..ROW_LIMIT).filter(|&row| table.get(row).and_then(Formula::stretch).is_none());
        let (within, past): (Vec<_>, Vec<_>) = plain.partition(|&row| row < table.len());
        let of = if past.is_empty() || random.once_in(2) { within } else { past };
        let row = random.pick(&of);
        let row = random.pick(&[of[0], of[of.len() - 1], row]);
        record.firsts[row] = random.pick(&[1, 1, 1 << 8, 1 << 16, 1 << 31, any]);
        return;
    }
    let (holding, empty): (Vec<_>, Vec<_>) = stretches.into_iter().partition(|&(row, _, _)| record.counts[row] > 0);
    if holding.is_empty() || !empty.is_empty() && random.once_in(6) {
        // A first place where there is no span, often one that the stretch has.
        let (row, interval, _) = random.pick(&empty);
        let places = interval.spans() as u32;
        record.firsts[row] = random.pick(&[1, places - 1, places - 1, places, any]);
        return;
    }
    let (row, interval, place) = random.pick(&holding);
    let (places, first, count) = (interval.spans() as u32, record.firsts[row], record.counts[row]);
    let word = |index: u64| place + (2 * first as u64 + index) as usize % (2 * places) as usize;
    let (used, free) = (2 * count as u64, 2 * (places - count) as u64);
    match random.below(8) {
        // Round once more, or as often as there are numbers: the same place, but not below the figure.
        0 => record.firsts[row] = random.pick(&[first + places, first + places, first + (u32::MAX - first) / places * places]),
        1 => record.firsts[row] = random.pick(&[places, places - 1, u32::MAX, u32::MAX - 1, any, 0]),
        2 => record.firsts[row] = first.wrapping_add(random.pick(&[1, 1, u32::MAX, 1 << 8, 1 << 16, 1 << 31])),
        // The oldest span is dropped, or the newest, and its words stay.
        3 if count > 1 => {
            record.firsts[row] = (first + random.below(2) as u32) % places;
            record.counts[row] -= 1;
        }
        // Two neighbours change places, often those at the stretch's ends.
        4 | 5 if count > 1 => {
            let end = (places - first) as u64;
            let newer = if end < count as u64 { random.pick(&[end, end, 1]) } else { random.between(1, count as u64 - 1) };
            store.swap(word(2 * newer), word(2 * newer - 2));
            store.swap(word(2 * newer + 1), word(2 * newer - 1));
        }
        // A word that is free.
        _ if free > 0 => {
            let index = used + random.pick(&[0, 1, free - 2, free - 1, any as u64 % free]);
            store[word(index)] = random.pick(&[1, 1, record.clock, NO_LAST]);
        }
        // No word is free: another span is the first.
        _ => record.firsts[row] = random.below(places as u64) as u32,
    }
}

fn frame(random: &mut Random) -> Vec<u8> {
    let bytes: Vec<u8> = (0..6).map(|_| random.word() as u8).collect();
    let sum = bytes.iter().fold(0u8, |sum, &byte| sum.wrapping_add(byte));
    let mut line: Vec<u8> = bytes.iter().chain([&sum]).flat_map(|byte| format!("{byte:02X}").into_bytes()).collect();
    line.push(b'\n');
    line
}

/// A text of frames, some of them damaged, often cut at its end.
pub fn text(random: &mut Random) -> Vec<u8> {
    let mut text = Vec::new();
    for _ in 0..random.below(6) {
        let mut line = frame(random);
        let place = random.below(line.len() as u64) as usize;
        match random.below(10) {
            0 => line[place] = random.pick(b"0123456789ABCDEF"),
            1 => line[place] = random.pick(b"\n\r /:@G`af\x00\xFF"),
            2 => {
                line.remove(place);
            }
            3 => line.insert(place, random.pick(b"0F\n\n ")),
            4 => line.truncate(place),
            _ => {}
        }
        text.extend(line);
    }
    if random.once_in(3) {
        text.truncate(random.below(text.len() as u64 + 1) as usize);
    }
    text
}
