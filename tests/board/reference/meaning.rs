//! The first reference: a monitor straight from the meaning, for records reached from a start. It keeps every accepted event, the clock and no spans;
//! verdicts, records and the words of the store are computed from the whole history each time. Only where a run stands follows from how the stream went: of
//! each row it counts the runs that began. A heartbeat is no event.

use crate::board::{Call, Record, HEARTBEAT, MOVED};
use crate::lines::time_of;
use crate::table::{check_list, Formula, Interval, Refusal, TIME_LIMIT};
use std::collections::BTreeSet;

struct Event {
    time: u64,
    truths: Vec<bool>,
}

/// The accepted events since a start, oldest first, and the time of the last accepted call, heartbeats too. Of each row, how many runs began since it last
/// had none: the one that began n-th, n from 0, stands at place n of the stretch, round.
pub struct History {
    rows: Vec<Formula>,
    events: Vec<Event>,
    clock: u64,
    begun: Vec<usize>,
}

impl History {
    pub fn start(rows: Vec<Formula>) -> History {
        let begun = vec![0; rows.len()];
        History { rows, events: Vec::new(), clock: 0, begun }
    }

    /// The answer to a call: its verdict tells of the rows that its list names.
    pub fn call(&mut self, list: &[u32], call: Call) -> u32 {
        if let Err(refusal) = check_list(list, &self.rows) {
            return refusal.code();
        }
        if let Some(row) = self.dead(list) {
            return Refusal::dead(row).code();
        }
        let (time, mask) = match call {
            Call::Event { time, mask } => (time, mask),
            Call::Frame { counter, mask } => (time_of(self.clock, counter), mask),
        };
        if time > TIME_LIMIT {
            return Refusal::of(6).code();
        }
        if time < self.clock {
            return Refusal::of(5).code();
        }
        self.clock = time;
        if mask & HEARTBEAT != 0 {
            self.follow(None);
            return MOVED;
        }
        self.events.push(Event { time, truths: Vec::new() });
        for row in 0..self.rows.len() {
            let truth = self.holds(row, mask);
            self.events.last_mut().unwrap().truths.push(truth);
        }
        self.follow(Some(self.events.len() - 1));
        self.verdict(list)
    }

    /// After a call at the clock's time, of this event or of none: a row that has no run but what the event brings begins to count anew, and a run that only the
    /// event brings has begun.
    fn follow(&mut self, event: Option<usize>) {
        for row in 0..self.rows.len() {
            if let Some(interval) = self.rows[row].stretch() {
                let mut starts = self.starts(row);
                let runs = self.runs(&starts, interval).len();
                starts.retain(|&start| Some(start) != event);
                let without = self.runs(&starts, interval).len();
                self.begun[row] = if without == 0 { runs } else { self.begun[row] + runs - without };
            }
        }
    }

    /// The lowest row that is not reached. The listed rows are reached, and so are those that reached rows name, until no more come.
    fn dead(&self, list: &[u32]) -> Option<usize> {
        let mut reached: BTreeSet<usize> = list.iter().map(|&row| row as usize).collect();
        loop {
            let named = reached.iter().flat_map(|&row| self.named(row)).flatten();
            let more: BTreeSet<usize> = named.chain(reached.iter().copied()).collect();
            if more == reached {
                return (0..self.rows.len()).find(|row| !reached.contains(row));
            }
            reached = more;
        }
    }

    /// The rows that a row names as x and as y.
    fn named(&self, row: usize) -> [Option<usize>; 2] {
        match self.rows[row] {
            Formula::True | Formula::Bit(_) => [None, None],
            Formula::And(x, y) | Formula::Or(x, y) | Formula::Since(x, y, _) => [Some(x), Some(y)],
            Formula::Not(x) | Formula::Previous(x, _) | Formula::Once(x, _) | Formula::Always(x, _) => [Some(x), None],
        }
    }

    /// Bit k is the truth of the k-th listed row at the newest event.
    fn verdict(&self, list: &[u32]) -> u32 {
        let truths = &self.events.last().unwrap().truths;
        let mut verdict = 0;
        for (row, &truth) in truths.iter().enumerate() {
            let listed = list.iter().position(|&listed| listed as usize == row);
            verdict |= listed.map_or(0, |bit| (truth as u32) << bit);
        }
        verdict
    }

    /// Whether a row holds at the newest event, at which all lower rows are known.
    fn holds(&self, row: usize, mask: u32) -> bool {
        let (now, before) = self.events.split_last().unwrap();
        match self.rows[row] {
            Formula::True => true,
            Formula::Bit(bit) => mask >> bit & 1 == 1,
            Formula::Not(x) => !now.truths[x],
            Formula::And(x, y) => now.truths[x] && now.truths[y],
            Formula::Or(x, y) => now.truths[x] || now.truths[y],
            Formula::Previous(x, interval) => before.last().map_or(false, |event| event.truths[x] && interval.has(now.time - event.time)),
            Formula::Since(x, y, interval) => self.reached(&self.since(x, y), interval, now.time),
            Formula::Once(x, interval) => self.events.iter().any(|event| event.truths[x] && interval.has(now.time - event.time)),
            Formula::Always(x, interval) => self.events.iter().all(|event| event.truths[x] || !interval.has(now.time - event.time)),
        }
    }

    /// The events at which y is true and after which x is true at every event.
    fn since(&self, x: usize, y: usize) -> Vec<usize> {
        let mut starts = Vec::new();
        for (place, event) in self.events.iter().enumerate().rev() {
            if event.truths[y] {
                starts.push(place);
            }
            if !event.truths[x] {
                break;
            }
        }
        starts
    }

    /// The events at which row x has this truth.
    fn having(&self, x: usize, truth: bool) -> Vec<usize> {
        (0..self.events.len()).filter(|&place| self.events[place].truths[x] == truth).collect()
    }

    /// The events from which a row's runs are reached; of an always row those where x is false.
    fn starts(&self, row: usize) -> Vec<usize> {
        match self.rows[row] {
            Formula::Since(x, y, _) => self.since(x, y),
            Formula::Once(x, _) => self.having(x, true),
            Formula::Always(x, _) => self.having(x, false),
            _ => Vec::new(),
        }
    }

    /// Whether u, which is not below the newest event's time, lies in [a,b] from some start.
    fn reached(&self, starts: &[usize], interval: Interval, u: u64) -> bool {
        starts.iter().any(|&start| interval.has(u - self.events[start].time))
    }

    /// The maximal runs of values reached from these starts, from the clock on, rising. A run begins at the clock or a after a start and ends b after one.
    fn runs(&self, starts: &[usize], interval: Interval) -> Vec<(u64, u64)> {
        let now = self.clock;
        let reached = |u: u64| u >= now && self.reached(starts, interval, u);
        let times = || starts.iter().map(|&start| self.events[start].time);
        let mut firsts: Vec<u64> = times().map(|start| start + interval.a).chain([now]).collect();
        firsts.retain(|&u| reached(u) && (u == now || !reached(u - 1)));
        let mut lasts: Vec<u64> = match interval.b {
            Some(b) => times().map(|start| start + b).filter(|&u| reached(u) && !reached(u + 1)).collect(),
            None => times().map(|_| u64::MAX).collect(),
        };
        for ends in [&mut firsts, &mut lasts] {
            ends.sort();
            ends.dedup();
        }
        assert_eq!(firsts.len(), lasts.len());
        firsts.into_iter().zip(lasts).collect()
    }

    /// The record, and the words of the store up to the need.
    pub fn record_and_words(&self) -> (Record, Vec<u64>) {
        let mut record = Record { rows: self.rows.len() as u32, clock: self.clock, ..Record::ZERO };
        let mut words = Vec::new();
        if let Some(event) = self.events.last() {
            record.seen = 1;
            record.last = event.time;
            for (row, &truth) in event.truths.iter().enumerate() {
                record.truths[row] = truth as u8;
            }
        }
        for (row, formula) in self.rows.iter().enumerate() {
            if let Some(interval) = formula.stretch() {
                let runs = self.runs(&self.starts(row), interval);
                let places = interval.spans() as usize;
                assert!(runs.len() <= places, "more runs than the figure");
                let mut stretch = vec![[0, 0]; places];
                for (number, &(first, last)) in (self.begun[row] - runs.len()..).zip(&runs) {
                    stretch[number % places] = [first, last];
                }
                words.extend(stretch.concat());
                record.counts[row] = runs.len() as u32;
                record.firsts[row] = ((self.begun[row] - runs.len()) % places) as u32;
            }
        }
        (record, words)
    }
}
