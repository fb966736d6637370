//! Packed lists, tables, sheets and modem settings to measure and to test with.

use crate::base;

/// A flow as size, interval and jitter.
pub type Flow = (u32, u32, u32);

/// Case A of document 01.
pub const CASE_A: [Flow; 3] = [(1, 4, 2), (2, 8, 0), (3, 8, 0)];

/// Case C of document 01 with 1/4/1: grants at 0, 1 and 5, the last one late by 1.
pub const CASE_C: [Flow; 2] = [(1, 4, 1), (4, 8, 0)];

/// The flows of the paging customer in document 02, whose intervals do not divide one another.
pub const PAGING: [Flow; 3] = [(4, 20, 5), (6, 30, 25), (5, 50, 45)];

/// 128 flows with intervals of 4,084, 4,052 and so on down to 20, each with the greatest jitter.
pub fn unrelated() -> Vec<Flow> {
    (0..128).rev().map(|index| (1 + index % 16, 20 + 32 * index, 19 + 32 * index)).collect()
}

/// 128 flows over 256 frames. Every group leaves full frames behind that the next one pushes.
pub fn long_pushes() -> Vec<Flow> {
    with_long_pushes([(3, 4096, 4095); 89])
}

/// 128 flows over 256 frames with 629 grants. The long ones do not fit a frame, and the frames between them are left with
/// a few slots that none of them can use.
pub fn eight_intervals() -> Vec<Flow> {
    let mut flows: Vec<Flow> = (4..=10).map(|power| (1, 1 << power, 15)).collect();
    flows.extend((8..=128).map(|number| (17 + number % 13, 4096, 15)));
    flows
}

/// 127 flows over 256 frames, as `long_pushes` but with longer ones at the end: 532 grants and 28 free slots of 4,096.
/// Six free slots in a row are only from 3,994 on.
pub fn nearly_full() -> Vec<Flow> {
    with_long_pushes([(5, 4096, 4095); 88])
}

fn with_long_pushes<const LAST: usize>(last: [Flow; LAST]) -> Vec<Flow> {
    let mut flows = vec![(1, 16, 15)];
    flows.extend([(24, 256, 40); 8]);
    flows.extend([(5, 2048, 90); 30]);
    flows.extend(last);
    flows
}

/// 11 flows with 1,023 grants over 256 frames, all full but the last: of 4,096 slots those from 4,092 on are free.
/// Three flows take 12 slots of every frame of 16, and the others the last 4 of every second frame, of every second one
/// that is left, and so on.
pub fn full_to_the_last_frame() -> Vec<Flow> {
    let mut flows = vec![(4, 16, 0); 3];
    flows.extend((5..=12).map(|power| (4, 1 << power, 0)));
    flows
}

/// 102 flows with 612 grants over 256 frames, which leave the last slot of every frame free, and no other in the first
/// 100 frames.
pub fn last_slots_free() -> Vec<Flow> {
    let mut flows = vec![(6, 16, 0); 2];
    flows.extend([(3, 4096, 0); 100]);
    flows
}

/// 8 flows with 1,024 grants: case H.
pub fn most_grants() -> Vec<Flow> {
    let mut flows = vec![(1, 16, 0); 4];
    flows.extend([(1, 4080, 0); 4]);
    flows
}

/// 128 flows whose sheet is the longest there is: four digits in every field.
pub fn longest_sheet() -> Vec<[u32; 4]> {
    (896..1024).map(|number| [number.max(1000), 4095, 4096, 4095]).collect()
}

/// The flows with the numbers 1, 2, ...
pub fn numbered(flows: &[Flow]) -> Vec<[u32; 4]> {
    (1..).zip(flows).map(|(number, &(size, interval, jitter))| [number, size, interval, jitter]).collect()
}

/// The packed list of these numbers, sizes, intervals and jitters, each cut to its width.
pub fn list(flows: &[[u32; 4]]) -> Vec<u8> {
    let mut list = vec![0x11, 0, (flows.len() >> 8) as u8, flows.len() as u8];
    for &[number, size, interval, jitter] in flows {
        let cut = |value: u32, width: u32| u64::from(value) & ((1 << width) - 1);
        let bits = cut(number, 10) << 38 | cut(size, 12) << 26 | cut(interval, 13) << 13 | cut(jitter, 13);
        list.extend(&bits.to_be_bytes()[2..]);
    }
    list
}

/// The sheet of these numbers, sizes, intervals and jitters.
pub fn sheet(flows: &[[u32; 4]]) -> Vec<u8> {
    let line = |&[number, size, interval, jitter]: &[u32; 4]| {
        format!("flow {number} size {size} every {interval} jitter {jitter}\n")
    };
    flows.iter().map(line).collect::<String>().into_bytes()
}

/// The planned table of a list, if it can be planned.
pub fn planned(list: &[u8]) -> Option<Vec<u8>> {
    let mut table = vec![0; base::LONGEST_TABLE];
    let length = base::plan(list, &mut table).ok()?;
    table.truncate(length);
    Some(table)
}

/// The packed table of this cycle, frame and these grants of start, flow number and late.
pub fn table(cycle: u32, frame: u32, grants: &[[u32; 3]]) -> Vec<u8> {
    let mut table = vec![0x12, 0, (grants.len() >> 8) as u8, grants.len() as u8];
    table.extend([(cycle >> 8) as u8, cycle as u8, (frame >> 8) as u8, frame as u8]);
    for &[start, number, late] in grants {
        let cut = |value: u32, width: u32| u64::from(value) & ((1 << width) - 1);
        let bits = cut(number, 10) << 30 | cut(start, 12) << 18 | cut(late, 12) << 6;
        table.extend(&bits.to_be_bytes()[3..]);
    }
    table
}

/// The slots that the measured settings are for: in microseconds and in bytes.
pub const CHANNEL: [u64; 2] = [25, 16];

/// Two encodings that ask for three flows: 15/800/32, and 8/400/20 twice.
pub fn small_settings() -> Vec<u8> {
    [encoding(232, 20_000, 800, 1), encoding(118, 10_000, 510, 2)].concat()
}

/// 128 encodings, each with one grant per interval.
pub fn settings_one_by_one() -> Vec<u8> {
    settings_of_128(&[])
}

/// 128 encodings of the greatest length, each with one grant per interval: 40 other settings stand before the four, and
/// one of what is left behind them.
pub fn settings_among_others() -> Vec<u8> {
    let others: Vec<_> = (0..40).map(|index| [1, 4, 6, 15, 16, 23, 35, 43][index % 8]).collect();
    settings_of_128(&others)
}

fn settings_of_128(others: &[u8]) -> Vec<u8> {
    let others: Vec<u8> = others.iter().flat_map(|&kind| setting(kind, &[7; 3])).collect();
    let after = if others.is_empty() { vec![] } else { setting(4, &[b'a'; 34]) };
    let asked = |index: u16| four_settings(16 + index, 25 << (9 + index % 4), 3200 + 25 * u32::from(index), 1);
    (0..128).flat_map(|index| setting(24, &[&others[..], &asked(index), &after].concat())).collect()
}

/// One encoding with 128 grants per interval.
pub fn settings_all_in_one() -> Vec<u8> {
    encoding(64, 102_400, 3200, 128)
}

/// The upstream service flow encoding that asks for this grant size in bytes, this interval and jitter in microseconds
/// and so many grants per interval.
pub fn encoding(size: u16, interval: u32, jitter: u32, grants: u8) -> Vec<u8> {
    setting(24, &four_settings(size, interval, jitter, grants))
}

/// The four settings that ask for flows, as they stand in an encoding.
pub fn four_settings(size: u16, interval: u32, jitter: u32, grants: u8) -> Vec<u8> {
    let (size, interval) = (setting(19, &size.to_be_bytes()), setting(20, &interval.to_be_bytes()));
    [size, interval, setting(21, &jitter.to_be_bytes()), setting(22, &[grants])].concat()
}

/// A setting: its type, its length and its value of at most 255 bytes.
pub fn setting(kind: u8, value: &[u8]) -> Vec<u8> {
    let length = u8::try_from(value.len()).expect("a length of one byte");
    [&[kind, length], value].concat()
}
