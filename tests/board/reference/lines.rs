//! The board's lines: reading a frame at a place, and the time of a frame (document 01, "Lines from the board").

use crate::board::Line;
use crate::table::{Refusal, TIME_LIMIT};

const FRAME: usize = 15;
const TURN: u64 = 65_536;

/// What reading says of itself.
pub const END: u32 = 0;
const READ: u32 = 1;

/// "time = last + ((counter - last) modulo 65,536)", where last is the clock (document 02, E2).
pub fn time_of(clock: u64, counter: u16) -> u64 {
    clock + (TURN + counter as u64 - clock % TURN) % TURN
}

pub fn frame_time((clock, counter): (u64, u16), time: &mut u64) -> u32 {
    if clock > TIME_LIMIT {
        return Refusal::of(6).code();
    }
    *time = time_of(clock, counter);
    0
}

/// The bytes of a frame line that is well formed.
fn frame_bytes(line: &[u8]) -> Option<Vec<u8>> {
    let (feed, digits) = line.split_last()?;
    let digit = |byte: u8| "0123456789ABCDEF".bytes().position(|digit| digit == byte);
    let values: Option<Vec<usize>> = digits.iter().map(|&byte| digit(byte)).collect();
    let bytes = values?.chunks(2).map(|pair| (16 * pair[0] + pair[1]) as u8).collect();
    (*feed == b'\n').then_some(bytes)
}

pub fn read_frame(text: &[u8], line: &mut Line) -> u32 {
    if line.place >= text.len() as u64 {
        return END;
    }
    let place = line.place as usize;
    let rest = &text[place..];
    line.place = rest.iter().position(|&byte| byte == b'\n').map_or(text.len(), |feed| place + feed + 1) as u64;
    let bytes = match rest.get(..FRAME).and_then(frame_bytes) {
        Some(bytes) => bytes,
        None => return Refusal::of(8).code(),
    };
    let sum = bytes[..6].iter().map(|&byte| byte as u32).sum::<u32>() % 256;
    if sum != bytes[6] as u32 {
        return Refusal::of(9).code();
    }
    line.counter = u16::from_be_bytes([bytes[0], bytes[1]]);
    line.mask = u32::from_be_bytes([bytes[2], bytes[3], bytes[4], bytes[5]]);
    line.place = (place + FRAME) as u64;
    READ
}
