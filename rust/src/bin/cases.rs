//! Answers a stream of outside cases on standard input, one line for each.

use harness::base::{self, Refusal};
use std::io::{self, BufWriter, Read, Write};

/// The byte that a room holds everywhere before its case.
const ROOM_BYTE: u8 = 0xA5;

fn main() -> io::Result<()> {
    let mut stream = Vec::new();
    io::stdin().lock().read_to_end(&mut stream)?;
    let mut lines = BufWriter::new(io::stdout().lock());
    let mut rest = &stream[..];
    while !rest.is_empty() {
        match answer(&mut rest) {
            Some(line) => writeln!(lines, "{line}")?,
            None => {
                writeln!(lines, "broken case")?;
                break;
            }
        }
    }
    lines.flush()
}

/// The answer to the case in front of the stream, which moves behind it. None if the stream stops inside the case, or
/// if the operation is not one of the base's.
fn answer(stream: &mut &[u8]) -> Option<String> {
    let (operation, rest) = stream.split_first()?;
    *stream = rest;
    match operation {
        1 => {
            let sheet = string(stream)?;
            written("pack", stream, |room| base::list_from_sheet(sheet, room))
        }
        2 => {
            let list = string(stream)?;
            written("write", stream, |room| base::sheet_from_list(list, room))
        }
        3 => {
            let list = string(stream)?;
            written("plan", stream, |room| base::plan(list, room))
        }
        4 => {
            let (list, table) = (string(stream)?, string(stream)?);
            let (number, place) = refusal(base::check(list, table).err());
            Some(format!("check {number} {place}"))
        }
        5 => {
            let (table, a, b) = (string(stream)?, number(stream)?, number(stream)?);
            let answer = base::window(table, a.into(), b.into());
            let (number, place) = refusal(answer.clone().err());
            let stretch = answer.unwrap_or(0..0);
            Some(format!("window {number} {place} {} {}", stretch.start, stretch.len()))
        }
        6 => live_add(stream),
        7 => {
            let (settings, slot_microseconds, slot_bytes) = (string(stream)?, number(stream)?, number(stream)?);
            written("settings", stream, |room| {
                base::list_from_settings(settings, slot_microseconds.into(), slot_bytes.into(), room)
            })
        }
        8 => {
            let (list, base) = (string(stream)?, number(stream)?);
            written("round", stream, |room| base::round_list(list, base.into(), room))
        }
        _ => None,
    }
}

fn live_add(stream: &mut &[u8]) -> Option<String> {
    let (list, table) = (string(stream)?, string(stream)?);
    let flow = [number(stream)?, number(stream)?, number(stream)?, number(stream)?].map(u64::from);
    let (mut list_room, mut table_room) = (room(stream)?, room(stream)?);
    let answer = base::live_add(list, table, flow, &mut list_room, &mut table_room);
    let (number, place) = refusal(answer.err());
    // What stands at the front of each room when it is done.
    let written = answer.and_then(|_| {
        let grants = base::Table::read(table)?.cycle as usize / flow[2] as usize;
        Ok((list.len() + 6, table.len() + 5 * grants))
    });
    let (list_bytes, table_bytes) = written.unwrap_or((0, 0));
    let (list_sum, table_sum) = (adler_32(&list_room), adler_32(&table_room));
    let offset = answer.unwrap_or(0);
    Some(format!("add {number} {place} {offset} {list_bytes} {list_sum} {table_bytes} {table_sum}"))
}

/// Runs an operation that writes one room, the last of its inputs.
fn written(name: &str, stream: &mut &[u8], operation: impl Fn(&mut [u8]) -> Result<usize, Refusal>) -> Option<String> {
    let mut room = room(stream)?;
    let answer = operation(&mut room);
    let (number, place) = refusal(answer.err());
    Some(format!("{name} {number} {place} {} {}", answer.unwrap_or(0), adler_32(&room)))
}

fn refusal(refusal: Option<Refusal>) -> (u32, u64) {
    refusal.map_or((0, 0), |refusal| (refusal.number, refusal.place))
}

/// The four bytes in front of the stream as a number.
fn number(stream: &mut &[u8]) -> Option<u32> {
    let (bytes, rest) = stream.split_first_chunk()?;
    *stream = rest;
    Some(u32::from_be_bytes(*bytes))
}

/// The room whose length is in front of the stream.
fn room(stream: &mut &[u8]) -> Option<Vec<u8>> {
    Some(vec![ROOM_BYTE; number(stream)? as usize])
}

/// The byte string in front of the stream.
fn string<'a>(stream: &mut &'a [u8]) -> Option<&'a [u8]> {
    let length = number(stream)? as usize;
    let (bytes, rest) = stream.split_at_checked(length)?;
    *stream = rest;
    Some(bytes)
}

fn adler_32(bytes: &[u8]) -> u32 {
    let (low, high) = bytes.iter().fold((1, 0), |(low, high), &byte| {
        let low = (low + u32::from(byte)) % 65_521;
        (low, (high + low) % 65_521)
    });
    high << 16 | low
}
