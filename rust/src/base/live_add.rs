//! Live add, request L1 of document 02: one flow more in a table that stays as it is.
//!
//! The new grants, none late, stand at the same place of every interval. So the intervals of the cycle are laid over one
//! another: a slot that is granted in any of them is taken, and the flow fits where enough slots in a row are not.

use super::*;

/// Adds a flow, given as number, size, interval and jitter, to a list and a table that passes, at the smallest offset
/// at which it fits without moving anyone: the new list and the new table at the front of their rooms; answers the
/// offset. Tests the old list by 1 to 7 and the old table by 11 to 18, then 3 to 6, 21, 7, 9, 22.
pub fn live_add(
    list: &[u8],
    table: &[u8],
    flow: [u64; 4],
    list_room: &mut [u8],
    table_room: &mut [u8],
) -> Result<usize, Refusal> {
    let mut flows = [Flow::NONE; FLOWS];
    let flows = read_list(list, &mut flows)?;
    let numbers = Numbers::of(flows)?;
    let mut groups = Groups::of(flows)?;
    let cycle = groups.cycle()?;
    let table = Table::read(table)?;
    test_table(flows, &numbers, &cycle, &table)?;

    let flow = test_new_flow(flow, flows, &numbers, &mut groups)?;
    if flow.interval < cycle.frame || flow.interval > cycle.slots {
        return refused(21, 0);
    }
    let cycle = groups.cycle()?;
    let list_room = list_room.get_mut(..list.len() + LIST_RECORD);
    let table_room = table_room.get_mut(..TABLE_FRONT + TABLE_RECORD * cycle.grants);
    let (Some(list_room), Some(table_room)) = (list_room, table_room) else {
        return refused(9, 0);
    };
    let Some(offset) = Taken::by(&table, flows, &numbers, flow.interval).first_free(flow.size) else {
        return refused(22, 0);
    };
    write_list(list, &flow, flows.len() + 1, list_room);
    write_table(&table, &flow, offset, &cycle, table_room);
    Ok(offset as usize)
}

/// The new flow, taken into its group. Tests 3 to 6, which the new record alone can fail.
fn test_new_flow(fields: [u64; 4], flows: &[Flow], numbers: &Numbers, groups: &mut Groups) -> Result<Flow, Refusal> {
    let place = flows.len() + 1;
    if place > FLOWS {
        return refused(3, 0);
    }
    // A number past 32 bits breaks its rule as the greatest of 32 bits does.
    let [number, size, interval, jitter] = fields.map(|field| u32::try_from(field).unwrap_or(u32::MAX));
    let flow = Flow { number, size, interval, jitter };
    if !flow.lawful() {
        return refused(4, place);
    }
    if numbers.index(number) < flows.len() {
        return refused(5, place);
    }
    if !groups.take(&flow) {
        return refused(6, place);
    }
    Ok(flow)
}

/// The slots of one interval, a bit each: those that are granted in some interval of the cycle.
struct Taken {
    interval: u32,
    slots: [u64; 64],
}

impl Taken {
    /// The slots that the grants of a table take, which passes for these flows.
    fn by(table: &Table, flows: &[Flow], numbers: &Numbers, interval: u32) -> Taken {
        let mut taken = Taken { interval, slots: [0; 64] };
        for grant in table.grants() {
            taken.take(grant.start % interval, flows[numbers.index(grant.number)].size);
        }
        taken
    }

    /// Takes so many slots from one on: behind the interval's last its first follows.
    #[inline(always)]
    fn take(&mut self, first: u32, size: u32) {
        let end = first + size;
        self.set(first, end.min(self.interval));
        if end > self.interval {
            self.set(0, (end - self.interval).min(self.interval));
        }
    }

    /// Sets the bits from `first` to before `end`, which is over it.
    #[inline(always)]
    fn set(&mut self, first: u32, end: u32) {
        let (first_word, last_word) = (first as usize / 64, (end - 1) as usize / 64);
        let (from_first, to_last) = (u64::MAX << (first % 64), u64::MAX >> (63 - (end - 1) % 64));
        if first_word == last_word {
            self.slots[first_word] |= from_first & to_last;
        } else {
            self.slots[first_word] |= from_first;
            self.slots[first_word + 1..last_word].fill(u64::MAX);
            self.slots[last_word] |= to_last;
        }
    }

    /// The first slot from which so many are free, all before the interval's end.
    fn first_free(&self, size: u32) -> Option<u32> {
        let mut end = 0;
        while end < self.interval {
            let first = self.next(end, u64::MAX);
            end = self.next(first, 0);
            if end - first >= size {
                return Some(first);
            }
        }
        None
    }

    /// The next slot from this one on whose bit is not that of `but`, and the interval's end if there is none.
    #[inline(always)]
    fn next(&self, slot: u32, but: u64) -> u32 {
        let mut from_slot = u64::MAX << (slot % 64);
        for (word, index) in self.slots[slot as usize / 64..].iter().zip(slot / 64..) {
            let found = (word ^ but) & from_slot;
            if found != 0 {
                return (64 * index + found.trailing_zeros()).min(self.interval);
            }
            from_slot = u64::MAX;
        }
        self.interval
    }
}

/// Writes the new list of so many flows: the old records and the new flow's.
fn write_list(list: &[u8], flow: &Flow, flows: usize, room: &mut [u8]) {
    let (old, new) = room.split_at_mut(list.len());
    old.copy_from_slice(list);
    old[..LIST_FRONT].copy_from_slice(&list_front(flows));
    new.copy_from_slice(&flow.packed());
}

/// Writes the new table: the old records as they are, and between them the new flow's, by their starts.
fn write_table(table: &Table, flow: &Flow, offset: u32, cycle: &Cycle, room: &mut [u8]) {
    let (front, records) = room.split_at_mut(TABLE_FRONT);
    front.copy_from_slice(&table_front(cycle));
    let (mut room, _) = records.as_chunks_mut();
    let mut old = table.records;
    for start in (offset..cycle.slots).step_by(flow.interval as usize) {
        let (before, after) = old.split_at(grants_before(start, old));
        let (records, rest) = room.split_at_mut(before.len() + 1);
        records[..before.len()].copy_from_slice(before);
        records[before.len()] = Grant { number: flow.number, start, late: 0, spare: 0 }.packed();
        (old, room) = (after, rest);
    }
    room.copy_from_slice(old);
}

/// How many of the records start before a time: the fewer they are, the fewer are looked at.
#[inline(always)]
fn grants_before(time: u32, records: &[[u8; TABLE_RECORD]]) -> usize {
    let before = |record: &[u8; TABLE_RECORD]| Grant::unpacked(record).start < time;
    let mut reach = 1;
    while records.get(reach).is_some_and(before) {
        reach *= 2;
    }
    records[..reach.min(records.len())].partition_point(before)
}
