//! Live add, modem settings and rounding, requests L1 to L3 of document 02: cases worked by hand.

use harness::base::{self, Refusal};
use harness::samples::{self, encoding, four_settings, setting, Flow};

// ---------------------------------------------------------------------------------------------------------------------
// Live add
// ---------------------------------------------------------------------------------------------------------------------

/// A list and its table.
struct Pair {
    list: Vec<u8>,
    table: Vec<u8>,
}

/// The offset, or the refusal's number and place.
type Answer = Result<usize, (u32, u64)>;

/// The flows 1, 2, ... and the grants of their table, each as start, flow and late.
fn pair(flows: &[Flow], cycle: u32, frame: u32, grants: &[[u32; 3]]) -> Pair {
    let pair = Pair { list: samples::list(&samples::numbered(flows)), table: samples::table(cycle, frame, grants) };
    assert_eq!(base::check(&pair.list, &pair.table), Ok(()));
    pair
}

/// Case C of document 01 with 1/4/1: slots 6 and 7 are free.
fn case_c() -> Pair {
    pair(&[(1, 4, 1), (4, 8, 0)], 8, 4, &[[0, 1, 0], [1, 2, 0], [5, 1, 1]])
}

/// Case D of document 01: no slot is free.
fn case_d() -> Pair {
    pair(&[(1, 4, 3), (6, 8, 0)], 8, 4, &[[0, 1, 0], [1, 2, 0], [7, 1, 3]])
}

/// The flows 1, 2, ... and the table that is planned for them.
fn planned(flows: &[Flow]) -> Pair {
    let list = samples::list(&samples::numbered(flows));
    let table = samples::planned(&list).expect("the list can be planned");
    Pair { list, table }
}

impl Pair {
    /// The answer with rooms of these lengths, and the rooms afterwards.
    fn add_in(&self, flow: [u64; 4], rooms: [usize; 2]) -> (Answer, [Vec<u8>; 2]) {
        let [mut list_room, mut table_room] = rooms.map(|length| vec![0xA5; length]);
        let answer = base::live_add(&self.list, &self.table, flow, &mut list_room, &mut table_room);
        let answer = answer.map_err(|Refusal { number, place }| (number, place));
        if answer.is_err() {
            assert!(list_room.iter().chain(&table_room).all(|&byte| byte == 0xA5), "a refusal writes nothing");
        }
        (answer, [list_room, table_room])
    }

    /// The offset, in rooms that are longer than needed. The new pair is what it has to be: the new flow last in the
    /// list, the old grants as they were, the new ones at the offset and every interval from there on, none late.
    fn add(&self, flow: [u64; 4]) -> Answer {
        let (answer, [list_room, table_room]) = self.add_in(flow, [1000, 6000]);
        let offset = answer?;
        let [number, _, interval, _] = flow.map(|field| field as u32);
        let table = base::Table::read(&self.table).expect("the pair passes");

        let mut list = self.list.clone();
        list[3] += 1;
        list.extend(&samples::list(&[flow.map(|field| field as u32)])[4..]);
        assert_eq!(list_room[..list.len()], list);
        assert!(list_room[list.len()..].iter().all(|&byte| byte == 0xA5), "the rest stays");

        let old = table.grants().map(|grant| [grant.start, grant.number, grant.late]);
        let new = (offset as u32..table.cycle).step_by(interval as usize).map(|start| [start, number, 0]);
        let mut grants: Vec<_> = old.chain(new).collect();
        grants.sort();
        let table = samples::table(table.cycle, table.frame, &grants);
        assert_eq!(table_room[..table.len()], table);
        assert!(table_room[table.len()..].iter().all(|&byte| byte == 0xA5), "the rest stays");
        assert_eq!(base::check(&list, &table), Ok(()));
        Ok(offset)
    }
}

#[test]
fn the_new_pair_byte_for_byte() {
    let (answer, [list, table]) = case_c().add_in([3, 2, 8, 0], [22, 28]);
    assert_eq!(answer, Ok(6));
    assert_eq!(list[..4], [0x11, 0, 0, 3]);
    assert_eq!(list[4..16], case_c().list[4..]);
    assert_eq!(list[16..], [0x00, 0xC0, 0x08, 0x01, 0x00, 0x00]);
    assert_eq!(table[..8], [0x12, 0, 0, 4, 0, 8, 0, 4]);
    assert_eq!(table[8..23], case_c().table[8..]);
    assert_eq!(table[23..], [0x00, 0xC0, 0x18, 0x00, 0x00]);
}

#[test]
fn the_smallest_offset() {
    // Slot 3 is granted.
    let pair = pair(&[(1, 8, 0)], 8, 8, &[[3, 1, 0]]);
    assert_eq!(pair.add([2, 1, 8, 0]), Ok(0));
    assert_eq!(pair.add([2, 3, 8, 7]), Ok(0));
    // Ending with the cycle is inside it.
    assert_eq!(pair.add([2, 4, 8, 0]), Ok(4));
    assert_eq!(pair.add([2, 5, 8, 0]), Err((22, 0)));
}

#[test]
fn every_grant_of_the_new_flow_fits() {
    // Slots 0, 4 and 5 are granted: from 1 the first grant would fit, the second not.
    let pair = pair(&[(1, 4, 0), (1, 8, 0)], 8, 4, &[[0, 1, 0], [4, 1, 0], [5, 2, 0]]);
    assert_eq!(pair.add([3, 1, 4, 0]), Ok(2));
    assert_eq!(pair.add([3, 2, 4, 0]), Ok(2));
    assert_eq!(pair.add([3, 3, 4, 0]), Err((22, 0)));
    assert_eq!(pair.add([3, 3, 8, 0]), Ok(1));
    // Slots 1, 3, 4 and 5 are granted: a grant runs from one interval into the next.
    let across = self::pair(&[(1, 4, 0), (2, 8, 0)], 8, 4, &[[1, 1, 0], [3, 2, 0], [5, 1, 0]]);
    assert_eq!(across.add([3, 1, 4, 0]), Ok(2));
    assert_eq!(across.add([3, 1, 8, 0]), Ok(0));
}

#[test]
fn a_late_grant_stands_where_it_starts() {
    // Slots 0, 1 and 6 are granted; slot 4 is a nominal time alone.
    let pair = pair(&[(1, 4, 2), (1, 8, 0)], 8, 4, &[[0, 1, 0], [1, 2, 0], [6, 1, 2]]);
    assert_eq!(pair.add([3, 4, 8, 0]), Ok(2));
    assert_eq!(pair.add([3, 5, 8, 0]), Err((22, 0)));
    assert_eq!(pair.add([3, 1, 4, 0]), Ok(3));
}

#[test]
fn no_grant_runs_past_the_cycle() {
    // Slots 0 and 7 are free, and follow each other only round the cycle's end.
    let round = pair(&[(6, 8, 0)], 8, 8, &[[1, 1, 0]]);
    assert_eq!(round.add([2, 1, 8, 0]), Ok(0));
    assert_eq!(round.add([2, 2, 8, 0]), Err((22, 0)));
    // Slots 3, 4 and 7 are free: from 3 the first grant would fit, the last not.
    let last = pair(&[(2, 4, 0), (1, 8, 0)], 8, 4, &[[0, 2, 0], [1, 1, 0], [5, 1, 0]]);
    assert_eq!(last.add([3, 2, 8, 0]), Ok(3));
    assert_eq!(last.add([3, 2, 4, 0]), Err((22, 0)));
    assert_eq!(last.add([3, 1, 4, 0]), Ok(3));
    // To the last slot of the longest cycle.
    let longest = pair(&[(4095, 4096, 0)], 4096, 4096, &[[0, 1, 0]]);
    assert_eq!(longest.add([1023, 1, 4096, 4095]), Ok(4095));
    assert_eq!(longest.add([1023, 2, 4096, 4095]), Err((22, 0)));
}

#[test]
fn an_old_grant_longer_than_the_new_interval() {
    // Slots 0 to 8 and 12 are granted.
    let grants = [[0, 1, 0], [1, 2, 0], [7, 1, 3], [8, 1, 0], [12, 1, 0]];
    let pair = pair(&[(1, 4, 3), (6, 16, 0)], 16, 4, &grants);
    assert_eq!(pair.add([3, 1, 4, 0]), Err((22, 0)));
    assert_eq!(pair.add([3, 1, 8, 0]), Err((22, 0)));
    assert_eq!(pair.add([3, 3, 16, 0]), Ok(9));
    assert_eq!(pair.add([3, 4, 16, 0]), Err((22, 0)));
}

#[test]
fn the_new_record_is_last_and_the_new_grants_stand_by_their_starts() {
    let grants = [[1, 900, 0], [2, 30, 0], [5, 900, 0], [9, 900, 0], [13, 900, 0]];
    let list = samples::list(&[[900, 1, 4, 0], [30, 1, 16, 0]]);
    let pair = Pair { list, table: samples::table(16, 4, &grants) };
    let (answer, [list, table]) = pair.add_in([7, 1, 4, 2], [22, 53]);
    assert_eq!(answer, Ok(0));
    assert_eq!(list, samples::list(&[[900, 1, 4, 0], [30, 1, 16, 0], [7, 1, 4, 2]]));
    let front = [[0, 7, 0], [1, 900, 0], [2, 30, 0], [4, 7, 0], [5, 900, 0]];
    let back = [[8, 7, 0], [9, 900, 0], [12, 7, 0], [13, 900, 0]];
    assert_eq!(table, samples::table(16, 4, &[&front[..], &back[..]].concat()));
}

#[test]
fn old_list_and_table_come_first() {
    let nonsense = [0, 0, 0, 0];
    let refused = |list: &[u8], table: &[u8]| {
        let pair = Pair { list: list.to_vec(), table: table.to_vec() };
        pair.add_in(nonsense, [0, 0]).0
    };
    let Pair { list, table } = case_c();
    assert_eq!(refused(&list, &table), Err((4, 3)));
    assert_eq!(refused(&[], &[]), Err((1, 0)));
    assert_eq!(refused(&[0x12, 0, 0, 0], &[]), Err((2, 0)));
    assert_eq!(refused(&[0x11, 0, 0, 0], &[]), Err((3, 0)));
    let of = |flows: &[Flow]| samples::list(&samples::numbered(flows));
    assert_eq!(refused(&of(&[(0, 4, 1), (4, 8, 0)]), &[]), Err((4, 1)));
    assert_eq!(refused(&samples::list(&[[1, 1, 4, 1], [1, 4, 8, 0]]), &[]), Err((5, 2)));
    assert_eq!(refused(&of(&[(1, 4, 1), (4, 6, 0)]), &[]), Err((6, 2)));
    assert_eq!(refused(&of(&[(1, 1, 0), (4, 257, 0)]), &[]), Err((7, 0)));
    assert_eq!(refused(&list, &table[..22]), Err((11, 0)));
    let with = |cycle, frame, grants: &[[u32; 3]]| refused(&list, &samples::table(cycle, frame, grants));
    assert_eq!(with(8, 4, &[[0, 1, 0], [0, 2, 0], [5, 1, 1]]), Err((12, 2)));
    assert_eq!(with(8, 8, &[[0, 1, 0], [1, 2, 0], [5, 1, 1]]), Err((13, 0)));
    assert_eq!(with(8, 4, &[[0, 1, 0], [1, 3, 0], [5, 1, 1]]), Err((14, 2)));
    assert_eq!(with(8, 4, &[[0, 1, 0], [1, 2, 0]]), Err((15, 1)));
    assert_eq!(with(8, 4, &[[0, 1, 0], [1, 2, 0], [5, 1, 0]]), Err((16, 3)));
    assert_eq!(with(8, 4, &[[0, 1, 0], [1, 2, 0], [4, 1, 0]]), Err((17, 3)));
    assert_eq!(with(8, 4, &[[0, 1, 0], [4, 1, 0], [5, 2, 0]]), Err((18, 3)));
}

#[test]
fn a_list_of_128_flows_takes_no_more() {
    let with = |flows: u32| {
        let grants: Vec<_> = (0..flows).map(|start| [start, start + 1, 0]).collect();
        pair(&vec![(1, 200, 0); flows as usize], 200, 200, &grants)
    };
    // 3 before 4, and before every other test.
    assert_eq!(with(128).add([0, 0, 0, 0]), Err((3, 0)));
    assert_eq!(with(128).add([1024, 1, 200, 0]), Err((3, 0)));
    assert_eq!(with(128).add([1, 1, 7, 0]), Err((3, 0)));
    assert_eq!(with(128).add_in([129, 1, 200, 0], [0, 0]).0, Err((3, 0)));
    assert_eq!(with(127).add([0, 0, 0, 0]), Err((4, 128)));
    assert_eq!(with(127).add([1, 1, 200, 0]), Err((5, 128)));
    assert_eq!(with(127).add([128, 1, 7, 0]), Err((6, 128)));
    assert_eq!(with(127).add([128, 1, 200, 0]), Ok(127));
}

#[test]
fn fields_of_the_new_flow() {
    let pair = case_c();
    let good = [3, 2, 8, 0];
    assert_eq!(pair.add(good), Ok(6));
    for (field, value) in [(0, 0), (0, 1024), (0, 1027), (1, 0), (1, 9), (1, 4098), (2, 0), (2, 4097), (3, 8)] {
        let mut flow = good;
        flow[field] = value;
        assert_eq!(pair.add(flow), Err((4, 3)), "{flow:?}");
    }
    assert_eq!(pair.add([3, 4096, 4096, 0]), Err((4, 3)));
    // What is right once it is cut to so many bits is wrong all the same.
    for field in 0..4 {
        for bit in [13, 16, 32, 63] {
            let mut flow = good;
            flow[field] += 1 << bit;
            assert_eq!(pair.add(flow), Err((4, 3)), "{flow:?}");
        }
        let mut flow = good;
        flow[field] = u64::MAX;
        assert_eq!(pair.add(flow), Err((4, 3)), "{flow:?}");
    }
    assert_eq!(pair.add([u64::MAX; 4]), Err((4, 3)));
    assert_eq!(pair.add([1023, 2, 8, 7]), Ok(6));
}

#[test]
fn the_order_of_tests_on_the_new_flow() {
    let pair = case_c();
    // 4, 5, 6, 21, 9: each with what later ones would refuse.
    assert_eq!(pair.add([2, 0, 3, 0]), Err((4, 3)));
    assert_eq!(pair.add([2, 1, 3, 0]), Err((5, 3)));
    assert_eq!(pair.add([1, 1, 16, 0]), Err((5, 3)));
    assert_eq!(pair.add([3, 1, 3, 0]), Err((6, 3)));
    assert_eq!(pair.add([3, 1, 6, 0]), Err((6, 3)));
    assert_eq!(pair.add([3, 1, 12, 0]), Err((6, 3)));
    assert_eq!(pair.add_in([3, 1, 2, 0], [0, 0]).0, Err((21, 0)));
    assert_eq!(pair.add_in([3, 1, 1, 0], [0, 0]).0, Err((21, 0)));
    assert_eq!(pair.add_in([3, 1, 16, 0], [0, 0]).0, Err((21, 0)));
    assert_eq!(pair.add_in([3, 1, 4096, 0], [0, 0]).0, Err((21, 0)));
    assert_eq!(pair.add_in([3, 1, 8, 0], [0, 0]).0, Err((9, 0)));
}

#[test]
fn outside_frame_and_cycle_before_too_many_grants() {
    // Below the frame: 4,096 frames and grants.
    assert_eq!(planned(&[(1, 16, 0), (1, 4096, 0)]).add([3, 1, 1, 0]), Err((21, 0)));
    // Over the cycle: 1,024 frames.
    assert_eq!(planned(&[(1, 4, 0)]).add([2, 1, 4096, 0]), Err((21, 0)));
    // Case H has 1,024 grants already.
    assert_eq!(planned(&samples::most_grants()).add([9, 1, 8, 0]), Err((21, 0)));
}

#[test]
fn at_most_1024_grants() {
    let most = planned(&samples::most_grants());
    assert_eq!(most.add([9, 1, 4080, 0]), Err((7, 0)));
    assert_eq!(most.add_in([9, 1, 4080, 0], [0, 0]).0, Err((7, 0)));
    let but_one = planned(&samples::most_grants()[..7]);
    assert_eq!(but_one.add([9, 1, 4080, 0]), Ok(7));
    assert_eq!(but_one.add([9, 1, 816, 0]), Err((7, 0)));
    assert_eq!(but_one.add([9, 1, 16, 0]), Err((7, 0)));
}

#[test]
fn either_room_too_short() {
    // What fits, and then what does not: 9 comes before 22.
    for (pair, answer) in [(case_c(), Ok(6)), (case_d(), Err((22, 0)))] {
        let add = |rooms| pair.add_in([3, 1, 8, 0], rooms).0;
        assert_eq!(add([22, 28]), answer);
        for rooms in [[21, 28], [22, 27], [21, 27], [0, 28], [22, 0], [0, 0], [5, 6000], [1000, 5]] {
            assert_eq!(add(rooms), Err((9, 0)), "{rooms:?}");
        }
    }
    // Five bytes for every grant of the new flow.
    let pair = pair(&[(1, 4, 0), (1, 16, 0)], 16, 4, &[[0, 1, 0], [1, 2, 0], [4, 1, 0], [8, 1, 0], [12, 1, 0]]);
    assert_eq!(pair.add_in([3, 1, 4, 0], [22, 53]).0, Ok(2));
    assert_eq!(pair.add_in([3, 1, 4, 0], [22, 52]).0, Err((9, 0)));
}

#[test]
fn no_offset_where_the_channel_is_full_or_oversold() {
    assert_eq!(case_d().add([3, 1, 8, 0]), Err((22, 0)));
    // The load would be over the cycle: 8 is not tested.
    assert_eq!(case_c().add([3, 3, 8, 0]), Err((22, 0)));
    assert_eq!(case_c().add([3, 8, 8, 0]), Err((22, 0)));
    // The load would be the cycle, but the free slots 1 and 3 lie apart.
    let apart = pair(&[(1, 4, 0), (1, 4, 0)], 4, 4, &[[0, 1, 0], [2, 2, 0]]);
    assert_eq!(apart.add([3, 2, 4, 3]), Err((22, 0)));
    assert_eq!(apart.add([3, 1, 4, 3]), Ok(1));
}

#[test]
fn the_samples_that_are_measured() {
    assert_eq!(planned(&samples::CASE_C).table, case_c().table);
    assert_eq!(planned(&samples::CASE_C).add([3, 2, 8, 0]), Ok(6));
    let nearly_full = planned(&samples::nearly_full());
    assert_eq!(nearly_full.list.len(), 4 + 6 * 127);
    assert_eq!(nearly_full.table.len(), 8 + 5 * 532);
    assert_eq!(base::load(&nearly_full.list), Ok(4096 - 28));
    assert_eq!(nearly_full.add([128, 6, 4096, 0]), Ok(3994));
    assert_eq!(nearly_full.add([128, 7, 4096, 0]), Err((22, 0)));
    let full = planned(&samples::full_to_the_last_frame());
    assert_eq!(full.table.len(), 8 + 5 * 1023);
    assert_eq!(full.add([12, 1, 4096, 0]), Ok(4092));
    assert_eq!(full.add([12, 4, 4096, 0]), Ok(4092));
    assert_eq!(full.add([12, 5, 4096, 0]), Err((22, 0)));
    let last_slots_free = planned(&samples::last_slots_free());
    assert_eq!(last_slots_free.table.len(), 8 + 5 * 612);
    assert_eq!(last_slots_free.add([103, 1, 16, 0]), Ok(15));
    assert_eq!(last_slots_free.add([103, 2, 16, 0]), Err((22, 0)));
}

// ---------------------------------------------------------------------------------------------------------------------
// Modem settings
// ---------------------------------------------------------------------------------------------------------------------

/// The list, or the refusal's number and place.
type Listed = Result<Vec<u8>, (u32, u64)>;

/// The answer in a room of this length. A refusal writes nothing, and what is not needed stays.
fn list_in(settings: &[u8], [microseconds, bytes]: [u64; 2], room: usize) -> Listed {
    let mut room = vec![0xA5; room];
    let answer = base::list_from_settings(settings, microseconds, bytes, &mut room);
    let length = answer.unwrap_or(0);
    assert!(room[length..].iter().all(|&byte| byte == 0xA5), "the rest stays");
    room.truncate(length);
    answer.map(|_| room).map_err(|Refusal { number, place }| (number, place))
}

/// The answer for a run of encodings and a channel, in a room that is longer than needed.
fn list_of(encodings: &[Vec<u8>], channel: [u64; 2]) -> Listed {
    list_in(&encodings.concat(), channel, 1000)
}

/// The list of these flows with the numbers 1, 2, ...
fn flows(flows: &[Flow]) -> Listed {
    Ok(samples::list(&samples::numbered(flows)))
}

/// A channel in which slots are bytes and microseconds.
const UNITS: [u64; 2] = [1, 1];
/// A channel with slots of 25 microseconds that hold 16 bytes.
const SLOTS: [u64; 2] = [25, 16];

/// An encoding that asks for one flow of 1/4/0 where slots are units.
fn good() -> Vec<u8> {
    encoding(1, 4, 0, 1)
}

/// An encoding without its setting of one type.
fn without(kind: u8) -> Vec<u8> {
    let kept = [(19, &[0, 1][..]), (20, &[0, 0, 0, 4]), (21, &[0, 0, 0, 0]), (22, &[1])];
    let settings = kept.iter().filter(|setting| setting.0 != kind).flat_map(|&(kind, value)| setting(kind, value));
    setting(24, &settings.collect::<Vec<_>>())
}

/// An encoding that asks for one flow of 1/4/0 and has these bytes behind.
fn good_and(more: &[u8]) -> Vec<u8> {
    setting(24, &[&four_settings(1, 4, 0, 1), more].concat())
}

#[test]
fn a_list_byte_for_byte() {
    // Size 232 bytes, interval 20,000 and jitter 800 microseconds, 1 grant per interval.
    let settings = [
        &[24, 19][..],
        &[19, 2, 0x00, 0xE8],
        &[20, 4, 0x00, 0x00, 0x4E, 0x20],
        &[21, 4, 0x00, 0x00, 0x03, 0x20],
        &[22, 1, 1],
    ];
    assert_eq!(settings.concat(), encoding(232, 20_000, 800, 1));
    // Flow 1 of 15/800/32: number 1 in 10 bits, 15 in 12, 800 in 13 and 32 in 13.
    let list = [0x11, 0, 0, 1, 0x00, 0x40, 0x3C, 0x64, 0x00, 0x20];
    assert_eq!(list_in(&settings.concat(), SLOTS, 10), Ok(list.to_vec()));
    assert_eq!(list_in(&settings.concat(), SLOTS, 11), Ok(list.to_vec()));
    assert_eq!(flows(&[(15, 800, 32)]), Ok(list.to_vec()));
}

#[test]
fn values_are_most_significant_byte_first() {
    assert_eq!(list_of(&[encoding(0x0102, 0x0E10, 0x0304, 1)], UNITS), flows(&[(0x102, 0xE10, 0x304)]));
    assert_eq!(list_of(&[encoding(1, 0x0102_0000, 0, 1)], [0x2_0000, 1]), flows(&[(1, 0x81, 0)]));
    assert_eq!(list_of(&[encoding(1, 0x0102_0000, 0x0100_FFFF, 1)], [0x2_0000, 1]), flows(&[(1, 0x81, 0x80)]));
}

#[test]
fn size_rounds_up() {
    for (bytes, slots) in [(1, 1), (15, 1), (16, 1), (17, 2), (32, 2), (33, 3), (65_520, 4095)] {
        assert_eq!(list_of(&[encoding(bytes, 4096, 0, 1)], [1, 16]), flows(&[(slots, 4096, 0)]), "{bytes}");
    }
    assert_eq!(list_of(&[encoding(65_521, 4096, 0, 1)], [1, 16]), Err((4, 1)));
    assert_eq!(list_of(&[encoding(65_535, 4096, 0, 1)], [1, 17]), flows(&[(3855, 4096, 0)]));
    for bytes in [65_535, 65_536, 1 << 32, u64::MAX - 1, u64::MAX] {
        assert_eq!(list_of(&[encoding(65_535, 4096, 0, 1)], [1, bytes]), flows(&[(1, 4096, 0)]), "{bytes}");
        assert_eq!(list_of(&[encoding(0, 4096, 0, 1)], [1, bytes]), Err((4, 1)), "{bytes}");
    }
    assert_eq!(list_of(&[encoding(65_535, 4096, 0, 1)], [1, 65_534]), flows(&[(2, 4096, 0)]));
}

#[test]
fn jitter_rounds_down() {
    for (microseconds, slots) in [(0, 0), (24, 0), (25, 1), (49, 1), (50, 2), (99, 3)] {
        assert_eq!(list_of(&[encoding(1, 100, microseconds, 1)], SLOTS), flows(&[(1, 4, slots)]), "{microseconds}");
    }
    // Interval less one is the most.
    assert_eq!(list_of(&[encoding(1, 100, 100, 1)], SLOTS), Err((4, 1)));
    assert_eq!(list_of(&[encoding(1, 100, u32::MAX, 1)], SLOTS), Err((4, 1)));
}

#[test]
fn an_interval_must_be_a_whole_number_of_slots() {
    assert_eq!(list_of(&[encoding(1, 100, 0, 1)], SLOTS), flows(&[(1, 4, 0)]));
    for microseconds in [1, 24, 26, 99, 101, 124, u32::MAX - 1] {
        assert_eq!(list_of(&[encoding(1, microseconds, 0, 1)], SLOTS), Err((25, 1)), "{microseconds}");
    }
    // A slot longer than the interval, of whatever length.
    for slot in [101, 65_536, 1 << 32, (1 << 32) + 100, u64::MAX] {
        assert_eq!(list_of(&[encoding(1, 100, 0, 1)], [slot, 16]), Err((25, 1)), "{slot}");
    }
    assert_eq!(list_of(&[encoding(1, u32::MAX, 0, 1)], [u64::from(u32::MAX), 16]), flows(&[(1, 1, 0)]));
    // The encoding is the place, not the record.
    let run = [encoding(1, 100, 0, 5), encoding(1, 100, 0, 0), encoding(1, 110, 0, 1), encoding(1, 120, 0, 1)];
    assert_eq!(list_of(&run, SLOTS), Err((25, 3)));
}

#[test]
fn an_interval_of_0_is_whole() {
    assert_eq!(list_of(&[encoding(1, 0, 0, 1)], SLOTS), Err((4, 1)));
    assert_eq!(list_of(&[encoding(1, 0, 0, 1)], [u64::MAX, u64::MAX]), Err((4, 1)));
    // With no flow there is no record at fault.
    assert_eq!(list_of(&[encoding(1, 0, 0, 0), encoding(1, 100, 0, 1)], SLOTS), flows(&[(1, 4, 0)]));
}

#[test]
fn several_grants_per_interval_become_as_many_flows() {
    let run = [encoding(1, 4, 3, 1), encoding(2, 8, 7, 3), encoding(3, 8, 5, 2)];
    assert_eq!(list_of(&run, UNITS), flows(&[(1, 4, 3), (2, 8, 7), (2, 8, 7), (2, 8, 7), (3, 8, 5), (3, 8, 5)]));
    assert_eq!(list_of(&[encoding(1, 4096, 0, 128)], UNITS), flows(&[(1, 4096, 0); 128]));
}

#[test]
fn flows_are_numbered_from_1_as_they_come() {
    let list = list_of(&[encoding(1, 4, 0, 2), encoding(1, 4, 0, 0), encoding(2, 8, 0, 2)], UNITS);
    assert_eq!(list, Ok(samples::list(&[[1, 1, 4, 0], [2, 1, 4, 0], [3, 2, 8, 0], [4, 2, 8, 0]])));
    let mut sheet = [0; 200];
    let length = base::sheet_from_list(&list.expect("a list"), &mut sheet).expect("a sheet");
    assert!(sheet[..length].ends_with(b"flow 4 size 2 every 8 jitter 0\n"));
}

#[test]
fn no_grants_per_interval_give_no_flow() {
    let nothing = encoding(1, 4, 0, 0);
    assert_eq!(list_in(&nothing, UNITS, 1000), Err((3, 0)));
    assert_eq!(list_of(&[nothing.clone(), good(), nothing.clone()], UNITS), flows(&[(1, 4, 0)]));
    // Its fields break no rule and its interval is related to all: it has no record.
    assert_eq!(list_of(&[encoding(9, 7, 8, 0), good()], UNITS), flows(&[(1, 4, 0)]));
    assert_eq!(list_of(&[encoding(0, 0, 9, 0), good()], UNITS), flows(&[(1, 4, 0)]));
    // But it is tested by 23 to 25 like any other.
    assert_eq!(list_of(&[encoding(16, 100, 0, 1), encoding(16, 99, 0, 0)], SLOTS), Err((25, 2)));
    assert_eq!(list_of(&[good(), setting(24, &setting(22, &[0]))], UNITS), Err((24, 2)));
    assert_eq!(list_of(&[good(), setting(24, &[four_settings(1, 4, 0, 0), vec![0]].concat())], UNITS), Err((23, 2)));
}

#[test]
fn other_settings_are_stepped_over_by_length() {
    // Every type but the four, with lengths of their own.
    for kind in (0..=255).filter(|kind| !(19..=22).contains(kind)) {
        for length in [0, 1, 2, 4, 234] {
            let other = setting(kind, &vec![22; length]);
            let behind = good_and(&other);
            let before = setting(24, &[other, four_settings(1, 4, 0, 1)].concat());
            assert_eq!(list_of(&[behind, before], UNITS), flows(&[(1, 4, 0); 2]), "{kind} {length}");
        }
    }
    // The four inside another setting are its value: neither given nor repeated.
    let inside = setting(24, &four_settings(2, 8, 1, 1));
    assert_eq!(list_of(&[good_and(&inside)], UNITS), flows(&[(1, 4, 0)]));
    assert_eq!(list_of(&[setting(24, &inside)], UNITS), Err((24, 1)));
}

#[test]
fn the_four_in_any_order() {
    let four = [setting(19, &[0, 3]), setting(20, &[0, 0, 0, 8]), setting(21, &[0, 0, 0, 2]), setting(22, &[2])];
    let other = setting(15, &[6]);
    for order in [[0, 1, 2, 3], [3, 2, 1, 0], [1, 3, 0, 2], [2, 0, 3, 1]] {
        let settings: Vec<_> = order.iter().flat_map(|&index| [four[index].clone(), other.clone()]).collect();
        assert_eq!(list_of(&[setting(24, &settings.concat())], UNITS), flows(&[(3, 8, 2); 2]), "{order:?}");
    }
}

#[test]
fn a_channel_value_of_zero_comes_first() {
    for settings in [vec![], good(), vec![24], vec![0, 0], setting(24, &[]), encoding(1, 7, 0, 1)] {
        for channel in [[0, 1], [1, 0], [0, 0], [0, u64::MAX], [u64::MAX, 0]] {
            assert_eq!(list_in(&settings, channel, 0), Err((26, 0)), "{settings:?} {channel:?}");
            assert_eq!(list_in(&settings, channel, 1000), Err((26, 0)), "{settings:?} {channel:?}");
        }
    }
}

#[test]
fn a_broken_encoding() {
    // Fewer than two bytes left for type and length.
    assert_eq!(list_in(&[24], UNITS, 100), Err((23, 1)));
    assert_eq!(list_of(&[good(), good(), vec![24]], UNITS), Err((23, 3)));
    assert_eq!(list_of(&[good(), vec![0]], UNITS), Err((23, 2)));
    // A length past the end.
    assert_eq!(list_in(&[24, 1], UNITS, 100), Err((23, 1)));
    assert_eq!(list_of(&[good(), vec![24, 255]], UNITS), Err((23, 2)));
    // Cut off anywhere but between two: the one that is cut.
    let run = [good(), encoding(2, 8, 0, 1)].concat();
    for length in (1..run.len()).filter(|length| *length != 21) {
        let place = if length < 21 { 1 } else { 2 };
        assert_eq!(list_in(&run[..length], UNITS, 100), Err((23, place)), "{length}");
    }
    assert_eq!(list_in(&run[..21], UNITS, 100), flows(&[(1, 4, 0)]));
    assert_eq!(list_in(&run, UNITS, 100), flows(&[(1, 4, 0), (2, 8, 0)]));
}

#[test]
fn a_broken_setting_breaks_its_encoding() {
    // Fewer than two bytes left, or a length past the end of the encoding, though not of the run.
    for more in [&[0][..], &[255], &[24], &[22], &[0, 1], &[0, 255], &[43, 2, 0], &[19, 2, 0]] {
        assert_eq!(list_of(&[good(), good_and(more), good()], UNITS), Err((23, 2)), "{more:?}");
        assert_eq!(list_of(&[good_and(more)], UNITS), Err((23, 1)), "{more:?}");
    }
    // The encoding's own length one too small, or one too great for what it holds.
    for length in [18, 20] {
        let mut second = good();
        second[1] = length;
        assert_eq!(list_of(&[good(), second, good()], UNITS), Err((23, 2)), "{length}");
    }
}

#[test]
fn another_type_at_the_top() {
    for kind in (0..=255).filter(|&kind| kind != 24) {
        let other = setting(kind, &four_settings(1, 4, 0, 1));
        assert_eq!(list_of(&[good(), other], UNITS), Err((23, 2)), "{kind}");
        assert_eq!(list_of(&[setting(kind, &[]), good()], UNITS), Err((23, 1)), "{kind}");
    }
    // 0 and 255 neither fill nor end a run.
    assert_eq!(list_of(&[good(), vec![255]], UNITS), Err((23, 2)));
    assert_eq!(list_of(&[good(), vec![0, 0]], UNITS), Err((23, 2)));
    assert_eq!(list_of(&[good(), vec![255, 0], good()], UNITS), Err((23, 2)));
}

#[test]
fn one_of_the_four_repeated() {
    for again in [setting(19, &[0, 1]), setting(20, &[0, 0, 0, 4]), setting(21, &[0; 4]), setting(22, &[1])] {
        assert_eq!(list_of(&[good(), good_and(&again)], UNITS), Err((23, 2)), "{again:?}");
        assert_eq!(list_of(&[good_and(&again), good()], UNITS), Err((23, 1)), "{again:?}");
        // Repeated with a value of 0, and where another is missing.
        let zero: Vec<_> = again[..2].iter().copied().chain(again[2..].iter().map(|_| 0)).collect();
        assert_eq!(list_of(&[good_and(&zero)], UNITS), Err((23, 1)), "{zero:?}");
        assert_eq!(list_of(&[setting(24, &again.repeat(2))], UNITS), Err((23, 1)), "{again:?}");
    }
    // Another setting may come as often as it will, and each encoding has its own four.
    assert_eq!(list_of(&[good_and(&[15, 0, 15, 0]), good()], UNITS), flows(&[(1, 4, 0); 2]));
}

#[test]
fn one_of_the_four_of_wrong_length() {
    for (kind, length) in [(19, 2), (20, 4), (21, 4), (22, 1)] {
        for wrong in (0..=16).chain([200]).filter(|&wrong| wrong != length) {
            let [mut before, after] = [without(kind), setting(kind, &vec![0; wrong])];
            before[1] += after.len() as u8;
            assert_eq!(list_of(&[good(), [before, after].concat()], UNITS), Err((23, 2)), "{kind} {wrong}");
        }
    }
}

#[test]
fn one_of_the_four_missing() {
    for kind in 19..=22 {
        assert_eq!(list_of(&[without(kind)], UNITS), Err((24, 1)), "{kind}");
        assert_eq!(list_of(&[good(), good(), without(kind), good()], UNITS), Err((24, 3)), "{kind}");
        // Another encoding's does not stand in for it.
        assert_eq!(list_of(&[without(kind), without(41 - kind)], UNITS), Err((24, 1)), "{kind}");
    }
    assert_eq!(list_of(&[setting(24, &[])], UNITS), Err((24, 1)));
    assert_eq!(list_of(&[good(), setting(24, &setting(15, &[6]))], UNITS), Err((24, 2)));
}

#[test]
fn each_test_over_the_whole_run_before_the_next() {
    let not_whole = encoding(16, 99, 0, 1);
    let missing = without(21);
    let whole = encoding(16, 100, 0, 1);
    // 23 anywhere before 24 anywhere before 25 anywhere.
    assert_eq!(list_of(&[not_whole.clone(), missing.clone(), vec![24]], SLOTS), Err((23, 3)));
    assert_eq!(list_of(&[not_whole.clone(), missing.clone(), whole.clone()], SLOTS), Err((24, 2)));
    assert_eq!(list_of(&[whole.clone(), not_whole.clone(), not_whole.clone()], SLOTS), Err((25, 2)));
    // The lowest place is named.
    assert_eq!(list_of(&[whole.clone(), good_and(&[0]), vec![0, 0], vec![24]], SLOTS), Err((23, 2)));
    assert_eq!(list_of(&[whole.clone(), missing.clone(), whole.clone(), missing.clone()], SLOTS), Err((24, 2)));
    // An interval that is not whole in an encoding where another setting is missing.
    let both = setting(24, &setting(20, &[0, 0, 0, 99]));
    assert_eq!(list_of(&[not_whole.clone(), both], SLOTS), Err((24, 2)));
    // 25 before 3, 3 before 4, 4 before 6, 6 before 9.
    let many = encoding(16, 100, 0, 255);
    assert_eq!(list_of(&[many.clone(), not_whole], SLOTS), Err((25, 2)));
    assert_eq!(list_of(&[many, encoding(0, 0, 0, 1)], SLOTS), Err((3, 0)));
    assert_eq!(list_of(&[whole.clone(), encoding(16, 150, 0, 1), encoding(0, 100, 0, 1)], SLOTS), Err((4, 3)));
    assert_eq!(list_in(&[whole.clone(), encoding(16, 150, 0, 1)].concat(), SLOTS, 0), Err((6, 2)));
    assert_eq!(list_in(&whole, SLOTS, 9), Err((9, 0)));
}

#[test]
fn from_1_to_128_flows() {
    assert_eq!(list_in(&[], UNITS, 100), Err((3, 0)));
    assert_eq!(list_in(&[], UNITS, 0), Err((3, 0)));
    let with = |grants: &[u8]| {
        let run: Vec<_> = grants.iter().map(|&grants| encoding(1, 200, 0, grants)).collect();
        list_of(&run, UNITS).map(|list| list.len())
    };
    assert_eq!(with(&[128]), Ok(772));
    assert_eq!(with(&[127, 0, 1, 0]), Ok(772));
    assert_eq!(with(&[1; 128]), Ok(772));
    for wrong in [&[129][..], &[255], &[128, 1], &[127, 0, 2], &[1; 129], &[255; 300], &[128, 128], &[0; 5], &[1; 256]]
    {
        assert_eq!(with(wrong), Err((3, 0)), "{wrong:?}");
    }
    // Encodings without flows do not count: any number of them.
    assert_eq!(with(&[&[0; 3000][..], &[2]].concat()), Ok(16));
    let many: Vec<_> = (0..70_000).map(|_| encoding(1, 4, 0, 0)).chain([vec![24]]).collect();
    assert_eq!(list_of(&many, UNITS), Err((23, 70_001)));
    // 65,537 flows are not one flow.
    assert_eq!(with(&[1; 65_537]), Err((3, 0)));
    assert_eq!(with(&[&[255; 257][..], &[2]].concat()), Err((3, 0)));
}

#[test]
fn places_of_3_to_6_are_those_of_the_list() {
    // The third encoding, but the fourth record.
    let before = [encoding(1, 4, 0, 3), encoding(1, 4, 0, 0)];
    let with = |last: Vec<u8>| list_of(&[&before[..], &[last]].concat(), UNITS);
    assert_eq!(with(encoding(0, 4, 0, 2)), Err((4, 4)));
    assert_eq!(with(encoding(5, 4, 0, 2)), Err((4, 4)));
    assert_eq!(with(encoding(1, 4, 4, 2)), Err((4, 4)));
    assert_eq!(with(encoding(1, 0, 0, 2)), Err((4, 4)));
    assert_eq!(with(encoding(1, 4097, 0, 2)), Err((4, 4)));
    assert_eq!(with(encoding(1, 6, 0, 2)), Err((6, 4)));
    assert_eq!(with(encoding(1, 4096, 4095, 1)), flows(&[(1, 4, 0), (1, 4, 0), (1, 4, 0), (1, 4096, 4095)]));
}

#[test]
fn nothing_is_cut_to_the_width_of_a_field() {
    // What is right once it is cut to 12 or 13 bits, or to 16, is wrong all the same.
    assert_eq!(list_of(&[encoding(4097, 4096, 0, 1)], UNITS), Err((4, 1)));
    assert_eq!(list_of(&[encoding(4096, 4096, 0, 1)], UNITS), Err((4, 1)));
    for bit in [13, 16, 24, 31] {
        assert_eq!(list_of(&[encoding(1, 4 + (1 << bit), 0, 1)], UNITS), Err((4, 1)), "{bit}");
        assert_eq!(list_of(&[encoding(1, 4, 1 << bit, 1)], UNITS), Err((4, 1)), "{bit}");
    }
    // And so are the channel's values.
    for bit in [8, 16, 32, 63] {
        assert_eq!(list_of(&[encoding(16, 100, 0, 1)], [25 + (1 << bit), 16]), Err((25, 1)), "{bit}");
        assert_eq!(list_of(&[encoding(17, 100, 0, 1)], [25, 16 + (1 << bit)]), flows(&[(1, 4, 0)]), "{bit}");
    }
}

#[test]
fn a_list_of_too_many_grants_or_too_great_a_load_is_a_list() {
    // 7 and 8 are not tested.
    assert_eq!(list_of(&[encoding(1, 1, 0, 1), encoding(1, 4096, 0, 1)], UNITS), flows(&[(1, 1, 0), (1, 4096, 0)]));
    assert_eq!(list_of(&[encoding(4, 4, 0, 3)], UNITS), flows(&[(4, 4, 0); 3]));
}

#[test]
fn a_room_too_short() {
    let run = [encoding(1, 4, 0, 2), encoding(1, 8, 0, 1)].concat();
    for room in [0, 1, 4, 10, 21] {
        assert_eq!(list_in(&run, UNITS, room), Err((9, 0)), "{room}");
    }
    for room in [22, 23, 5000] {
        assert_eq!(list_in(&run, UNITS, room), flows(&[(1, 4, 0), (1, 4, 0), (1, 8, 0)]), "{room}");
    }
}

#[test]
fn the_settings_that_are_measured() {
    let listed = |settings: &[u8]| list_in(settings, samples::CHANNEL, base::LONGEST_LIST);
    assert_eq!(listed(&samples::small_settings()), flows(&[(15, 800, 32), (8, 400, 20), (8, 400, 20)]));
    assert_eq!(listed(&samples::settings_all_in_one()), flows(&[(4, 4096, 128); 128]));
    let one_by_one: Vec<_> =
        (0..128).map(|index| (1 + u32::div_ceil(index, 16), 512 << (index % 4), 128 + index)).collect();
    assert_eq!(listed(&samples::settings_one_by_one()), flows(&one_by_one));
    assert_eq!(listed(&samples::settings_among_others()), flows(&one_by_one));
    assert_eq!(samples::settings_one_by_one().len(), 128 * 21);
    assert_eq!(samples::settings_among_others().len(), 128 * 257);
}

// ---------------------------------------------------------------------------------------------------------------------
// Rounding
// ---------------------------------------------------------------------------------------------------------------------

/// The answer for a list and a base in a room of this length. A refusal writes nothing, and what is not needed stays.
fn round_in(list: &[u8], base: u64, room: usize) -> Listed {
    let mut room = vec![0xA5; room];
    let answer = base::round_list(list, base, &mut room);
    let length = answer.unwrap_or(0);
    assert!(room[length..].iter().all(|&byte| byte == 0xA5), "the rest stays");
    room.truncate(length);
    answer.map(|_| room).map_err(|Refusal { number, place }| (number, place))
}

/// The answer for the flows 1, 2, ... and a base, in a room that is longer than needed.
fn round(flows: &[Flow], base: u64) -> Listed {
    round_in(&samples::list(&samples::numbered(flows)), base, 1000)
}

/// The refusal's number when a list is planned, 0 if there is none.
fn plan_refusal(list: &[u8]) -> u32 {
    base::plan(list, &mut [0; base::LONGEST_TABLE]).err().map_or(0, |refusal| refusal.number)
}

#[test]
fn a_rounded_list_byte_for_byte() {
    // Flow 2 of 6/30/25 for the base 20: 6/20/19. Number 2 in 10 bits, 6 in 12, 20 in 13 and 19 in 13.
    let list = [0x11, 0, 0, 1, 0x00, 0x80, 0x18, 0x03, 0xC0, 0x19];
    let rounded = [0x11, 0, 0, 1, 0x00, 0x80, 0x18, 0x02, 0x80, 0x13];
    assert_eq!(list.to_vec(), samples::list(&[[2, 6, 30, 25]]));
    assert_eq!(round_in(&list, 20, 10), Ok(rounded.to_vec()));
    assert_eq!(round_in(&list, 20, 11), Ok(rounded.to_vec()));
}

#[test]
fn the_paging_customer() {
    assert_eq!(round(&samples::PAGING, 20), flows(&[(4, 20, 5), (6, 20, 19), (5, 40, 39)]));
    assert_eq!(round(&samples::PAGING, 15), flows(&[(4, 15, 5), (6, 30, 25), (5, 30, 29)]));
    assert_eq!(round(&samples::PAGING, 10), flows(&[(4, 20, 5), (6, 20, 19), (5, 40, 39)]));
    assert_eq!(round(&samples::PAGING, 1), flows(&[(4, 16, 5), (6, 16, 15), (5, 32, 31)]));
    assert_eq!(round(&samples::PAGING, 21), Err((28, 1)));
    // Now they can be planned.
    let list = samples::list(&samples::numbered(&samples::PAGING));
    assert_eq!(plan_refusal(&list), 6);
    let rounded = round_in(&list, 20, list.len()).expect("a list");
    let table = [[0, 1, 0], [4, 2, 0], [10, 3, 0], [20, 1, 0], [24, 2, 0]];
    assert_eq!(samples::planned(&rounded), Some(samples::table(40, 20, &table)));
    assert_eq!(base::load(&rounded), Ok(25));
}

#[test]
fn the_largest_base_times_a_power_of_two_not_above_the_interval() {
    for (interval, base, rounded) in [
        (1, 1, 1),
        (2, 1, 2),
        (3, 1, 2),
        (4, 1, 4),
        (4095, 1, 2048),
        (4096, 1, 4096),
        (3, 3, 3),
        (5, 3, 3),
        (6, 3, 6),
        (11, 3, 6),
        (12, 3, 12),
        (4096, 3, 3072),
        (3071, 3, 1536),
        (4095, 2048, 2048),
        (4096, 2048, 4096),
        (4096, 2049, 2049),
        (4095, 4095, 4095),
        (4096, 4095, 4095),
        (4096, 4096, 4096),
    ] {
        assert_eq!(round(&[(1, interval, 0)], base), flows(&[(1, rounded, 0)]), "{interval} to {base}");
    }
}

#[test]
fn the_size_stays_and_the_jitter_is_capped() {
    // The new interval is 20.
    for (jitter, capped) in [(0, 0), (1, 1), (18, 18), (19, 19), (20, 19), (21, 19), (38, 19)] {
        assert_eq!(round(&[(20, 39, jitter)], 20), flows(&[(20, 20, capped)]), "{jitter}");
    }
    // Of a new interval of 1 none is left.
    assert_eq!(round(&[(1, 1, 0)], 1), flows(&[(1, 1, 0)]));
    assert_eq!(round(&[(1, 4096, 4095)], 4095), flows(&[(1, 4095, 4094)]));
    assert_eq!(round(&[(4095, 4096, 4095)], 4096), flows(&[(4095, 4096, 4095)]));
}

#[test]
fn numbers_and_their_order_stay() {
    let list = samples::list(&[[1023, 1, 50, 0], [7, 2, 20, 1], [512, 3, 30, 2], [1, 4, 20, 3]]);
    let rounded = samples::list(&[[1023, 1, 40, 0], [7, 2, 20, 1], [512, 3, 20, 2], [1, 4, 20, 3]]);
    assert_eq!(round_in(&list, 20, 28), Ok(rounded));
}

#[test]
fn a_rounded_list_is_related_and_stays_as_it_is() {
    let lists = [samples::PAGING.to_vec(), samples::unrelated(), vec![(1, 7, 0), (1, 11, 3), (1, 13, 12)]];
    for old in &lists {
        for base in [1, 2, 3, 5, 7] {
            let rounded = round(old, base).expect("a list");
            assert_ne!(plan_refusal(&rounded), 6, "{base}");
            assert_eq!(round_in(&rounded, base, rounded.len()), Ok(rounded), "{base}");
        }
    }
    // A related list with its frame as the base stays only if its intervals are the frame times powers of two.
    assert_eq!(round(&samples::CASE_A, 4), flows(&samples::CASE_A));
    assert_eq!(round(&[(1, 4, 2), (1, 12, 9)], 4), flows(&[(1, 4, 2), (1, 8, 7)]));
}

#[test]
fn the_old_list_comes_first() {
    let list = samples::list(&samples::numbered(&samples::PAGING));
    // Each with a base that 27 refuses, and with one that 28 would.
    for base in [0, 21, 4097, u64::MAX] {
        assert_eq!(round_in(&[], base, 0), Err((1, 0)));
        assert_eq!(round_in(&list[..3], base, 0), Err((1, 0)));
        assert_eq!(round_in(&list[..21], base, 0), Err((1, 0)));
        assert_eq!(round_in(&[&list[..], &[0]].concat(), base, 0), Err((1, 0)));
        for (byte, number) in [(0, 2), (1, 2), (2, 3)] {
            let mut wrong = list.clone();
            wrong[byte] ^= 1;
            assert_eq!(round_in(&wrong, base, 0), Err((number, 0)));
        }
        assert_eq!(round_in(&[0x11, 0, 0, 0], base, 0), Err((3, 0)));
        for wrong in [[0, 1, 30, 0], [2, 0, 30, 0], [2, 31, 30, 0], [2, 1, 0, 0], [2, 1, 4097, 0], [2, 1, 30, 30]] {
            let list = samples::list(&[[1, 1, 20, 0], wrong, [1, 1, 50, 0]]);
            assert_eq!(round_in(&list, base, 0), Err((4, 2)), "{wrong:?}");
        }
        let used = samples::list(&[[1, 1, 20, 0], [2, 1, 30, 0], [1, 1, 50, 0], [2, 1, 50, 0]]);
        assert_eq!(round_in(&used, base, 0), Err((5, 3)));
    }
}

#[test]
fn the_old_list_is_not_tested_by_6_to_8() {
    let unrelated = [(1, 4, 0), (1, 6, 0), (1, 9, 0)];
    assert_eq!(plan_refusal(&flows(&unrelated).expect("a list")), 6);
    assert_eq!(round(&unrelated, 4), flows(&[(1, 4, 0), (1, 4, 0), (1, 8, 0)]));
    // Too many frames, before and after.
    let frames = [(1, 1, 0), (1, 4096, 0)];
    assert_eq!(plan_refusal(&flows(&frames).expect("a list")), 7);
    assert_eq!(round(&frames, 1), flows(&frames));
    // Over 1,024 grants, before and after.
    let grants = [(1, 16, 0), (1, 16, 0), (1, 16, 0), (1, 16, 0), (1, 4096, 0)];
    assert_eq!(plan_refusal(&flows(&grants).expect("a list")), 7);
    assert_eq!(round(&grants, 16), flows(&grants));
    // Too great a load, before and after, and only after.
    let load = [(3, 4, 0), (2, 4, 0)];
    assert_eq!(plan_refusal(&flows(&load).expect("a list")), 8);
    assert_eq!(round(&load, 4), flows(&load));
    let fits = [(4, 7, 0), (3, 7, 0)];
    assert_eq!(plan_refusal(&flows(&fits).expect("a list")), 0);
    assert_eq!(round(&fits, 4), flows(&[(4, 4, 0), (3, 4, 0)]));
    assert_eq!(plan_refusal(&round(&fits, 4).expect("a list")), 8);
}

#[test]
fn a_base_from_1_to_4096() {
    let longest = [(1, 4096, 0)];
    assert_eq!(round(&longest, 1), flows(&longest));
    assert_eq!(round(&longest, 4096), flows(&longest));
    let greatest = [4097, 4098, 8192, 65_536, 1 << 32, (1 << 32) + 1, (1 << 32) + 4096, 1 << 63, (1 << 63) + 1];
    for base in greatest.into_iter().chain([0, u64::MAX]) {
        assert_eq!(round(&longest, base), Err((27, 0)), "{base}");
        // Before 28, before 4 on the new list and before 9.
        assert_eq!(round(&samples::PAGING, base), Err((27, 0)), "{base}");
        assert_eq!(round_in(&flows(&[(39, 39, 0)]).expect("a list"), base, 0), Err((27, 0)), "{base}");
    }
}

#[test]
fn an_interval_below_the_base() {
    let old = [(1, 50, 0), (1, 20, 0), (1, 30, 0)];
    assert_eq!(round(&old, 20), flows(&[(1, 40, 0), (1, 20, 0), (1, 20, 0)]));
    assert_eq!(round(&old, 21), Err((28, 2)));
    assert_eq!(round(&old, 30), Err((28, 2)));
    assert_eq!(round(&old, 51), Err((28, 1)));
    assert_eq!(round(&old, 4096), Err((28, 1)));
    assert_eq!(round(&[(1, 4095, 0)], 4096), Err((28, 1)));
    // Over the whole list before 4 on the new one, and before 9.
    assert_eq!(round(&[(39, 39, 0), (1, 19, 0)], 20), Err((28, 2)));
    assert_eq!(round_in(&flows(&old).expect("a list"), 21, 0), Err((28, 2)));
}

#[test]
fn a_size_over_the_new_interval() {
    // The old interval holds the size, the new one of 20 does not.
    for size in [21, 22, 38, 39] {
        assert_eq!(round(&[(1, 20, 0), (20, 39, 0), (size, 39, 0), (39, 39, 0)], 20), Err((4, 3)), "{size}");
    }
    assert_eq!(round(&[(20, 39, 0), (40, 40, 0)], 20), flows(&[(20, 20, 0), (40, 40, 0)]));
    assert_eq!(round(&[(4095, 4095, 0)], 4095), flows(&[(4095, 4095, 0)]));
    assert_eq!(round(&[(4095, 4095, 0)], 4094), Err((4, 1)));
    // Before 9.
    assert_eq!(round_in(&flows(&[(39, 39, 0)]).expect("a list"), 20, 0), Err((4, 1)));
}

#[test]
fn a_room_too_short_for_the_rounded_list() {
    let list = flows(&samples::PAGING).expect("a list");
    for room in [0, 1, 4, 10, 21] {
        assert_eq!(round_in(&list, 20, room), Err((9, 0)), "{room}");
    }
    for room in [22, 23, 5000] {
        assert_eq!(round_in(&list, 20, room), flows(&[(4, 20, 5), (6, 20, 19), (5, 40, 39)]), "{room}");
    }
}

#[test]
fn the_roundings_that_are_measured() {
    let unrelated = samples::unrelated();
    let list = flows(&unrelated).expect("a list");
    assert_eq!(list.len(), base::LONGEST_LIST);
    assert_eq!((unrelated[0], unrelated[127]), ((16, 4084, 4083), (1, 20, 19)));
    assert_eq!(plan_refusal(&list), 6);
    assert_eq!(round(&unrelated[..1], 20), flows(&[(16, 2560, 2559)]));
    assert_eq!(round(&unrelated[..1], 1), flows(&[(16, 2048, 2047)]));
    assert!(round(&unrelated, 20).is_ok_and(|rounded| rounded.len() == base::LONGEST_LIST));
    assert!(round(&unrelated, 1).is_ok_and(|rounded| rounded.len() == base::LONGEST_LIST));
    assert_eq!(round_in(&list, 21, 0), Err((28, 128)));
}
