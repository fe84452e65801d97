//! The second reference: soundness, the one-event rules and the heartbeat written out, for any table, list, store and record, reached or not.

use crate::board::{Call, Checked, Kept, Record, HEARTBEAT, MOVED};
use crate::lines::time_of;
use crate::table::{self, Formula, Interval, Refusal, Rules, Table, ROW_LIMIT, TIME_LIMIT};

/// The stored last of a span without end.
pub const NO_LAST: u64 = 18_446_744_073_709_551_615;

/// The rows that own a stretch of the store, each with its interval and the stretch's place.
pub fn stretches(rows: &[Formula]) -> Vec<(usize, Interval, usize)> {
    let mut place = 0;
    let mut stretches = Vec::new();
    for (row, formula) in rows.iter().enumerate() {
        if let Some(interval) = formula.stretch() {
            stretches.push((row, interval, place));
            place += 2 * interval.spans() as usize;
        }
    }
    stretches
}

/// The pairs of words of a stretch, `words`, from a place on, round.
fn round(words: &[u64], first: u32) -> Vec<(u64, u64)> {
    let mut pairs: Vec<(u64, u64)> = words.chunks(2).map(|pair| (pair[0], pair[1])).collect();
    pairs.rotate_left(first as usize);
    pairs
}

/// Soundness of one stretch, `words`, with so many spans from its first place round, at this clock and this time of the last event.
fn sound_stretch(interval: Interval, words: &[u64], first: u32, count: u32, clock: u64, event: u64) -> bool {
    let within = if count == 0 { first == 0 } else { (first as u64) < interval.spans() };
    if count as u64 > interval.spans() || !within {
        return false;
    }
    let mut spans = round(words, first);
    let free = spans.split_off(count as usize);
    let spans: Vec<(u128, u128)> = spans.iter().map(|&(first, last)| (first as u128, last as u128)).collect();
    let [clock, event, a] = [clock, event, interval.a].map(u128::from);
    let each = spans.iter().all(|&(first, last)| match interval.b.map(u128::from) {
        Some(b) => first <= last && clock <= first && last <= event + b && (first == clock || last - first >= b - a),
        None => clock <= first && first <= clock.max(event + a) && last == NO_LAST as u128,
    });
    let apart = spans.windows(2).all(|pair| pair[0].1 + 2 <= pair[1].0);
    each && apart && free.iter().all(|&pair| pair == (0, 0))
}

fn sound(rows: &[Formula], store: &[u64], record: &Record) -> bool {
    let stretches = stretches(rows);
    let owns = |row: usize| stretches.iter().any(|&(owner, _, _)| owner == row);
    let no_event = record.last == 0 && record.truths == [0; ROW_LIMIT] && record.counts == [0; ROW_LIMIT] && record.firsts == [0; ROW_LIMIT];
    record.seen <= 1
        && record.truths.iter().all(|&truth| truth <= 1)
        && record.rows as usize == rows.len()
        && record.truths[rows.len()..].iter().all(|&truth| truth == 0)
        && (0..ROW_LIMIT).all(|row| owns(row) || record.counts[row] == 0 && record.firsts[row] == 0)
        && (record.seen == 1 || no_event)
        && record.last <= record.clock
        && record.clock <= TIME_LIMIT
        && stretches.iter().all(|&(row, interval, place)| {
            let words = &store[place..place + 2 * interval.spans() as usize];
            sound_stretch(interval, words, record.firsts[row], record.counts[row], record.clock, record.last)
        })
}

/// The spans of a stretch, oldest first, the place at which the oldest stands, and how many places there are.
struct Ring {
    spans: Vec<(u64, u64)>,
    first: usize,
    places: usize,
}

impl Ring {
    /// So many spans of `words`, from the first place round, clipped at t: ended ones are dropped, and the first one begins no earlier. The place goes on by
    /// those dropped; where all are, it is 0.
    fn clipped(words: &[u64], first: u32, count: u32, t: u64) -> Ring {
        let held = round(words, first).into_iter().take(count as usize);
        let spans: Vec<(u64, u64)> = held.filter(|&(_, last)| last >= t).map(|(first, last)| (first.max(t), last)).collect();
        let (dropped, places) = (count as usize - spans.len(), words.len() / 2);
        let first = if spans.is_empty() { 0 } else { (first as usize + dropped) % places };
        Ring { spans, first, places }
    }

    /// No span is left.
    fn clear(&mut self) {
        self.spans.clear();
        self.first = 0;
    }

    /// Puts the spans into their stretch, `words`, zeros in the places that are free; gives the first place and how many spans there are.
    fn put(&self, words: &mut [u64]) -> (u32, u32) {
        assert!(self.spans.len() <= self.places, "more spans than places");
        words.fill(0);
        for (index, &(first, last)) in self.spans.iter().enumerate() {
            let place = (self.first + index) % self.places;
            words[2 * place] = first;
            words[2 * place + 1] = last;
        }
        (self.first as u32, self.spans.len() as u32)
    }
}

/// The span t+a to t+b joined into spans, all of which are clipped at t.
fn join(spans: &mut Vec<(u64, u64)>, span: (u64, u64)) {
    spans.push(span);
    spans.sort();
    let mut joined: Vec<(u64, u64)> = Vec::new();
    for &(first, last) in spans.iter() {
        match joined.last_mut() {
            Some(former) if first <= former.1.saturating_add(1) => former.1 = former.1.max(last),
            _ => joined.push((first, last)),
        }
    }
    *spans = joined;
}

/// An event at t in a stretch, `words`, with so many spans from its first place round: they are clipped at t, dropped unless they are kept, and t+a to t+b
/// is joined in where the event feeds them. Gives the first place and how many there are then, and whether t lies in one.
fn update(interval: Interval, words: &mut [u64], first: u32, count: u32, t: u64, kept: bool, fed: bool) -> (u32, u32, bool) {
    let mut ring = Ring::clipped(words, first, count, t);
    if !kept {
        ring.clear();
    }
    if fed {
        join(&mut ring.spans, (t + interval.a, interval.b.map_or(NO_LAST, |b| t + b)));
    }
    let (first, count) = ring.put(words);
    (first, count, ring.spans.iter().any(|&(first, last)| first <= t && t <= last))
}

/// One event, rows rising, on a sound record.
fn step(rows: &[Formula], store: &mut [u64], record: &mut Record, t: u64, mask: u32) {
    let before = *record;
    let mut truths = [false; ROW_LIMIT];
    let mut stretches = stretches(rows).into_iter();
    for (row, formula) in rows.iter().enumerate() {
        let mut inside = |kept: bool, fed: bool| {
            let (_, interval, place) = stretches.next().unwrap();
            let words = &mut store[place..place + 2 * interval.spans() as usize];
            let (first, count, inside) = update(interval, words, before.firsts[row], before.counts[row], t, kept, fed);
            record.firsts[row] = first;
            record.counts[row] = count;
            inside
        };
        truths[row] = match *formula {
            Formula::True => true,
            Formula::Bit(bit) => mask & 1 << bit != 0,
            Formula::Not(x) => !truths[x],
            Formula::And(x, y) => truths[x] & truths[y],
            Formula::Or(x, y) => truths[x] | truths[y],
            Formula::Previous(x, interval) => before.seen == 1 && before.truths[x] == 1 && interval.has(t - before.last),
            Formula::Since(x, y, _) => inside(truths[x], truths[y]),
            Formula::Once(x, _) => inside(true, truths[x]),
            Formula::Always(x, _) => !inside(true, !truths[x]),
        };
        record.truths[row] = truths[row] as u8;
    }
    record.seen = 1;
    record.clock = t;
    record.last = t;
}

/// The truths that the record has of the listed rows, the first as the lowest bit.
fn verdict(list: &[u32], record: &Record) -> u32 {
    (0..).zip(list).map(|(k, &row)| (record.truths[row as usize] as u32) << k).sum()
}

/// A heartbeat at t, on a sound record: spans are clipped and the clock moves.
fn beat(rows: &[Formula], store: &mut [u64], record: &mut Record, t: u64) {
    for (row, interval, place) in stretches(rows) {
        let words = &mut store[place..place + 2 * interval.spans() as usize];
        (record.firsts[row], record.counts[row]) = Ring::clipped(words, record.firsts[row], record.counts[row], t).put(words);
    }
    record.clock = t;
}

pub fn check(Table(table): Table, checked: &mut Checked) -> u32 {
    let rows = match table::check(table) {
        Err(refusal) => return refusal.code(),
        Ok(rows) => rows,
    };
    *checked = Checked { rows: rows.len() as u32, need: table::need(&rows) };
    0
}

pub fn start(rules: Rules, kept: &mut Kept) -> u32 {
    let (store, record) = kept.lent();
    *record = Record::ZERO;
    let rows = match table::ready(rules, store.len()) {
        Err(refusal) => return refusal.code(),
        Ok(rows) => rows,
    };
    store[..table::need(&rows) as usize].fill(0);
    record.rows = rows.len() as u32;
    0
}

pub fn call((rules, call): (Rules, Call), kept: &mut Kept) -> u32 {
    let (store, record) = kept.lent();
    let rows = match table::ready(rules, store.len()) {
        Err(refusal) => return refusal.code(),
        Ok(rows) => rows,
    };
    if !sound(&rows, store, record) {
        return Refusal::of(7).code();
    }
    let (time, mask) = match call {
        Call::Event { time, mask } => (time, mask),
        Call::Frame { counter, mask } => (time_of(record.clock, counter), mask),
    };
    if time > TIME_LIMIT {
        return Refusal::of(6).code();
    }
    if time < record.clock {
        return Refusal::of(5).code();
    }
    if mask & HEARTBEAT != 0 {
        beat(&rows, store, record, time);
        return MOVED;
    }
    step(&rows, store, record, time, mask);
    verdict(rules.list, record)
}
