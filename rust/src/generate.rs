//! Random inputs, the same for the same seed: good ones, ones at the limits, and damaged ones.

use crate::{base, samples};

/// One call of an operation. A room is its length; it holds `ROOM_BYTE` everywhere.
#[derive(Clone, Debug)]
pub enum Case {
    ListFromSheet {
        sheet: Vec<u8>,
        room: usize,
    },
    SheetFromList {
        list: Vec<u8>,
        room: usize,
    },
    Plan {
        list: Vec<u8>,
        room: usize,
    },
    Check {
        list: Vec<u8>,
        table: Vec<u8>,
    },
    Window {
        table: Vec<u8>,
        a: u64,
        b: u64,
    },
    /// The flow as number, size, interval and jitter; the rooms of the list and of the table.
    LiveAdd {
        list: Vec<u8>,
        table: Vec<u8>,
        flow: [u64; 4],
        rooms: [usize; 2],
    },
    /// The channel as the microseconds and the bytes of a slot.
    ListFromSettings {
        settings: Vec<u8>,
        channel: [u64; 2],
        room: usize,
    },
    RoundList {
        list: Vec<u8>,
        base: u64,
        room: usize,
    },
}

/// The byte that a room holds everywhere before its call.
pub const ROOM_BYTE: u8 = 0xA5;

impl Case {
    /// The operation's name in an answer line of the outside cases.
    pub fn name(&self) -> &'static str {
        match self {
            Case::ListFromSheet { .. } => "pack",
            Case::SheetFromList { .. } => "write",
            Case::Plan { .. } => "plan",
            Case::Check { .. } => "check",
            Case::Window { .. } => "window",
            Case::LiveAdd { .. } => "add",
            Case::ListFromSettings { .. } => "settings",
            Case::RoundList { .. } => "round",
        }
    }

    /// The case as the stream of outside cases has it. None if a number is over four bytes.
    pub fn bytes(&self) -> Option<Vec<u8>> {
        let number = |value: u64| u32::try_from(value).ok().map(|value| value.to_be_bytes().to_vec());
        let string = |bytes: &[u8]| Some([number(bytes.len() as u64)?, bytes.to_vec()].concat());
        let numbers = |values: &[u64]| values.iter().map(|&value| number(value)).collect::<Option<Vec<_>>>();
        let (operation, strings, numbers) = match self {
            Case::ListFromSheet { sheet, room } => (1, string(sheet)?, numbers(&[*room as u64])?),
            Case::SheetFromList { list, room } => (2, string(list)?, numbers(&[*room as u64])?),
            Case::Plan { list, room } => (3, string(list)?, numbers(&[*room as u64])?),
            Case::Check { list, table } => (4, [string(list)?, string(table)?].concat(), vec![]),
            Case::Window { table, a, b } => (5, string(table)?, numbers(&[*a, *b])?),
            Case::LiveAdd { list, table, flow, rooms } => {
                let rooms = rooms.map(|room| room as u64);
                (6, [string(list)?, string(table)?].concat(), numbers(&[&flow[..], &rooms[..]].concat())?)
            }
            Case::ListFromSettings { settings, channel, room } => {
                (7, string(settings)?, numbers(&[channel[0], channel[1], *room as u64])?)
            }
            Case::RoundList { list, base, room } => (8, string(list)?, numbers(&[*base, *room as u64])?),
        };
        Some([vec![operation], strings, numbers.concat()].concat())
    }
}

/// Number, size, interval and jitter of a flow.
type Fields = [u32; 4];
const NUMBER: usize = 0;
const SIZE: usize = 1;
const INTERVAL: usize = 2;
const JITTER: usize = 3;

/// A source of random cases: xorshift64*.
pub struct Random(u64);

impl Random {
    pub fn new(seed: u64) -> Random {
        // Spread out, so that neighbouring seeds start far apart; never 0.
        Random(seed.wrapping_add(1).wrapping_mul(0x9E37_79B9_7F4A_7C15) | 1)
    }

    fn next(&mut self) -> u64 {
        self.0 ^= self.0 >> 12;
        self.0 ^= self.0 << 25;
        self.0 ^= self.0 >> 27;
        self.0.wrapping_mul(0x2545_F491_4F6C_DD1D)
    }

    /// A number below `end`, which is over 0.
    fn below(&mut self, end: usize) -> usize {
        (((self.next() >> 32) * end as u64) >> 32) as usize
    }

    /// A number from `first` to `last`.
    fn between(&mut self, first: u32, last: u32) -> u32 {
        first + self.below((last - first + 1) as usize) as u32
    }

    fn one_in(&mut self, times: usize) -> bool {
        self.below(times) == 0
    }

    fn pick<T: Copy>(&mut self, choices: &[T]) -> T {
        choices[self.below(choices.len())]
    }

    /// Puts the items in any order.
    fn shuffle<T>(&mut self, items: &mut [T]) {
        for last in (1..items.len()).rev() {
            let other = self.below(last + 1);
            items.swap(last, other);
        }
    }

    /// A random case of any operation.
    pub fn case(&mut self) -> Case {
        match self.below(12) {
            0 => {
                let sheet = self.sheet();
                let room = self.room(base::LONGEST_LIST, |room| base::list_from_sheet(&sheet, room));
                Case::ListFromSheet { sheet, room }
            }
            1 => {
                let list = self.list();
                let room = self.room(base::LONGEST_SHEET, |room| base::sheet_from_list(&list, room));
                Case::SheetFromList { list, room }
            }
            2 | 3 => {
                let list = self.list();
                let room = self.room(base::LONGEST_TABLE, |room| base::plan(&list, room));
                Case::Plan { list, room }
            }
            4 => {
                let (list, table) = self.list_and_table();
                Case::Check { list, table }
            }
            5 => {
                let (_, table) = self.list_and_table();
                let (a, b) = self.window(&table);
                Case::Window { table, a, b }
            }
            6 | 7 => self.live_add(),
            8 | 9 => self.list_from_settings(),
            _ => self.round_list(),
        }
    }

    /// The length of a room for an operation.
    fn room(&mut self, longest: usize, operation: impl Fn(&mut [u8]) -> Result<usize, base::Refusal>) -> usize {
        self.room_about(operation(&mut vec![0; longest]).unwrap_or(64), longest)
    }

    /// The length of a room: exact, one short, longer, empty, the longest or any.
    fn room_about(&mut self, exact: usize, longest: usize) -> usize {
        match self.below(12) {
            0 => exact - 1,
            1 => exact + 1 + self.below(64),
            2 => 0,
            3 => self.below(longest),
            4 | 5 => longest,
            _ => exact,
        }
    }

    // -----------------------------------------------------------------------------------------------------------------
    // Flows
    // -----------------------------------------------------------------------------------------------------------------

    /// Intervals of which each divides the next, mostly with at most 256 frames.
    fn intervals(&mut self) -> Vec<u32> {
        let frame = match self.below(6) {
            0 => self.between(1, 4096),
            1 => self.between(1, 100),
            2 => self.pick(&[1, 2, 11, 15, 48, 100, 4095, 4096]),
            _ => self.pick(&[4, 6, 8, 10, 12, 16, 20, 32]),
        };
        let most_frames = if self.one_in(30) { 4096 } else { 256 };
        let mut intervals = vec![frame];
        let mut last = frame;
        while !self.one_in(5) {
            let factor = match self.below(8) {
                0 => self.between(2, 256),
                1 => self.between(2, 16),
                2 => self.pick(&[128, 255, 256, 257]),
                _ => self.pick(&[2, 2, 2, 3, 4, 4, 5]),
            };
            if last * factor > 4096 || last * factor / frame > most_frames {
                break;
            }
            last *= factor;
            intervals.push(last);
        }
        intervals
    }

    /// Flows that keep the rules of their fields, mostly related and mostly not oversold.
    fn flows(&mut self) -> Vec<Fields> {
        let mut flows = match self.below(20) {
            0 => self.flows_near_1024_grants(),
            1..5 => self.flows_that_push(),
            _ => self.flows_by_load(),
        };
        self.arrange(&mut flows);
        flows
    }

    /// Flows of size 1 with 1,023 to 1,026 grants together, over so many frames that 128 flows will mostly do.
    fn flows_near_1024_grants(&mut self) -> Vec<Fields> {
        let mut intervals = self.intervals();
        while intervals[intervals.len() - 1] / intervals[0] < 16 {
            intervals = self.intervals();
        }
        let cycle = intervals[intervals.len() - 1];
        let mut grants = self.between(1023, 1026);
        let tightness = self.below(8);
        let mut flows = Vec::new();
        while grants > 0 && flows.len() < 128 {
            // Every interval once, so that frame and cycle are there; then what takes the most grants.
            let most = intervals.iter().copied().find(|&interval| cycle / interval <= grants).unwrap_or(cycle);
            let interval = intervals.get(flows.len()).copied().unwrap_or(most);
            grants = grants.saturating_sub(cycle / interval);
            flows.push([
                flows.len() as u32 + 1,
                1,
                interval,
                self.jitter(tightness, interval, interval == intervals[0]),
            ]);
        }
        flows
    }

    /// Flows of sizes about the frame over a short one that can be pushed a little: some fit only a later frame, and
    /// smaller ones then push them from an earlier one.
    fn flows_that_push(&mut self) -> Vec<Fields> {
        let frame = self.between(4, 20);
        let middle = frame * self.between(2, 8);
        let cycle = middle * self.pick(&[1, 1, 2, 3, 8, 16]);
        let mut flows = vec![[1, self.between(1, frame / 4), frame, self.between(1, frame / 3)]];
        let mut slots = (cycle - cycle / frame * flows[0][SIZE]) * self.between(60, 100) / 100;
        let most = self.between(2, 127);
        for number in 2..2 + most {
            let interval = self.pick(&[middle, cycle, cycle]);
            let size = self.between(1, frame + 2).min(slots / (cycle / interval));
            if size == 0 {
                break;
            }
            slots -= size * (cycle / interval);
            flows.push([number, size, interval, self.between(0, 2)]);
        }
        flows
    }

    /// Flows that come to a load of some part of the cycle.
    fn flows_by_load(&mut self) -> Vec<Fields> {
        let intervals = self.intervals();
        let (frame, cycle) = (intervals[0], intervals[intervals.len() - 1]);
        let most = self.pick(&[1, 2, 3, 4, 6, 8, 12, 24, 48, 128]);
        let count = if self.one_in(4) { most } else { self.between(1, most) };
        let mut slots = cycle * self.pick(&[40, 70, 90, 95, 100, 100, 100, 100]) / 100;
        let oversold = self.one_in(15);
        let mut grants = if self.one_in(30) { 1100 } else { 1024 };
        let tightness = self.below(8);
        let mut flows = Vec::new();
        for index in 0..count {
            let mut interval = match index {
                0 => frame,
                1 => cycle,
                _ => self.pick(&intervals),
            };
            if cycle / interval > grants {
                interval = cycle;
            }
            let times = cycle / interval;
            let most = (slots / times).min(interval).min(4095);
            if index > 0 && (grants == 0 || most == 0 && !oversold) {
                break;
            }
            let share = (2 * most / (count - index)).clamp(1, most.max(1));
            let size = match self.below(8) {
                0 => 1,
                1 => self.between(1, most.max(1)),
                2 if index + 1 == count => most.max(1),
                3 => self.between(1, share.min(4)),
                _ => self.between(1, share),
            };
            slots = slots.saturating_sub(size * times);
            grants = grants.saturating_sub(times);
            flows.push([index + 1, size, interval, self.jitter(tightness, interval, interval == intervals[0])]);
        }
        flows
    }

    /// A jitter for a flow of this interval: none, the most, little, any, the shortest interval's free and the others'
    /// tight, or any of these.
    fn jitter(&mut self, tightness: usize, interval: u32, shortest: bool) -> u32 {
        match tightness {
            0 => 0,
            1 => interval - 1,
            2 => self.between(0, 3.min(interval - 1)),
            3 => self.between(0, (interval - 1) / 4),
            4 => self.between(0, interval - 1),
            5 | 6 if shortest => self.between((interval - 1) / 2, interval - 1),
            5 | 6 => self.between(0, 1.min(interval - 1)),
            _ => {
                let tightness = self.below(5);
                self.jitter(tightness, interval, shortest)
            }
        }
    }

    /// Puts the flows in any order and gives them other numbers, each but one time in three.
    fn arrange(&mut self, flows: &mut [Fields]) {
        if !self.one_in(3) {
            self.shuffle(flows);
        }
        if !self.one_in(3) {
            let step = self.pick(&[1, 7, 100, 500, 1021]);
            let first = self.between(0, 1022);
            for (index, flow) in flows.iter_mut().enumerate() {
                flow[NUMBER] = 1 + (first + step * index as u32) % 1023;
            }
        }
    }

    /// Brings a field of a flow to a limit or past it, or spoils what the flows have to do with one another.
    fn damage_flows(&mut self, flows: &mut Vec<Fields>) {
        let index = self.below(flows.len());
        let other = self.pick(flows);
        let flow = &mut flows[index];
        let interval = flow[INTERVAL];
        match self.below(14) {
            0 => flow[NUMBER] = self.pick(&[0, 1, 1022, 1023]),
            1 => flow[SIZE] = self.pick(&[0, 1, 4094, 4095]),
            2 => flow[SIZE] = interval + self.between(0, 1),
            3 => flow[INTERVAL] = self.pick(&[0, 1, 4095, 4096, 4097, 8191]),
            4 => flow[INTERVAL] = interval + 1,
            5 => flow[JITTER] = interval - self.between(0, 1),
            6 => flow[JITTER] = self.pick(&[0, 4095, 4096, 8191]),
            7 => flow[INTERVAL] = interval * self.between(1, 300),
            8 => flow[SIZE] = self.between(1, interval),
            9 => flow[self.below(4)] = self.between(0, 9999),
            10 | 11 => flow[NUMBER] = other[NUMBER],
            12 => flows.push(other),
            _ => {
                let count = self.pick(&[127, 128, 129, 130, 200, 256]);
                let flow = *flow;
                flows.resize(count, flow);
                for (number, flow) in (1..).zip(flows) {
                    flow[NUMBER] = number;
                }
            }
        }
    }

    // -----------------------------------------------------------------------------------------------------------------
    // Lists and sheets
    // -----------------------------------------------------------------------------------------------------------------

    /// A packed list: three in four with flows that keep the rules of fields, nine in ten with a right head and length.
    pub fn list(&mut self) -> Vec<u8> {
        let mut flows = self.flows();
        if self.one_in(4) {
            self.damage_flows(&mut flows);
        }
        let mut list = samples::list(&flows);
        if self.one_in(10) {
            self.damage_packed(&mut list, 4, 6);
        }
        list
    }

    /// Spoils the head, the length or any bit of a packed form with so many bytes before its records and in each.
    fn damage_packed(&mut self, packed: &mut Vec<u8>, front: usize, record: usize) {
        match self.below(10) {
            0 => packed[0] = self.next() as u8,
            1 => packed[0] ^= 1 << self.below(8),
            2 => packed[1] = 1 << self.below(8),
            3 => {
                let count = self.pick(&[0, 1, 2, 127, 128, 129, 255, 256, 1023, 1024, 1025, 65_535]) as u16;
                packed[2..4].copy_from_slice(&count.to_be_bytes());
            }
            4 => packed[3] = packed[3].wrapping_add(self.pick(&[1, 255])),
            5 => packed.truncate(packed.len() - 1 - self.below(record)),
            6 => packed.truncate(self.below(front + 1)),
            7 => packed.resize(packed.len() + 1 + self.below(2 * record), 0),
            8 => {
                for byte in packed.iter_mut().skip(front) {
                    *byte = self.next() as u8;
                }
            }
            _ => {
                let bit = self.below(8 * packed.len());
                packed[bit / 8] ^= 1 << (bit % 8);
            }
        }
    }

    /// A sheet: two in three of the form of document 01, with fields that keep their rules or not.
    pub fn sheet(&mut self) -> Vec<u8> {
        let mut flows = self.flows();
        if self.one_in(3) {
            self.damage_flows(&mut flows);
        }
        if self.one_in(8) {
            let flow = self.below(flows.len());
            flows[flow][self.below(4)] = self.pick(&[0, 9, 10, 99, 100, 999, 1000, 1024, 4096, 4097, 9999, 10_000]);
        }
        let mut sheet = samples::sheet(&flows);
        if self.one_in(40) {
            let lines = self.pick(&[1000, 1400]);
            sheet = sheet.repeat(lines / flows.len() + 1);
            sheet.truncate(65_536);
        }
        while self.one_in(3) {
            self.damage_text(&mut sheet);
        }
        sheet
    }

    fn damage_text(&mut self, sheet: &mut Vec<u8>) {
        if sheet.is_empty() {
            return;
        }
        let at = self.below(sheet.len());
        // The end of the line there.
        let end = at + sheet[at..].iter().position(|&byte| byte == b'\n').unwrap_or(0);
        match self.below(16) {
            0 => sheet[at] ^= 1 << self.below(8),
            1 => sheet[at] = self.next() as u8,
            2 => sheet[at] = self.pick(b"\t\r\0\x80\xff 0123456789\n:/"),
            3 => sheet.insert(at, self.pick(b"\t\r\0\xa0 0123456789\nfx+-")),
            4 => drop(sheet.remove(at)),
            5 => sheet.truncate(sheet.len() - 1),
            6 => sheet.truncate(at),
            7 => sheet.clear(),
            8 => sheet.push(self.pick(b"\n \0f")),
            9 => sheet.insert(end, self.pick(b"\n\r \t0123456789")),
            10 => sheet.insert(end + 1, b'\n'),
            11 => sheet.swap(at, end),
            _ => self.damage_word(sheet, at),
        }
    }

    /// Misspells the first such word from a place on, or adds a digit before the number that follows it.
    fn damage_word(&mut self, sheet: &mut Vec<u8>, at: usize) {
        let (word, other) = self.pick(&[
            ("flow", "flo"),
            ("flow", "Flow"),
            ("flow ", "flow  "),
            ("flow ", "flow 0"),
            ("flow ", "flow 1"),
            (" size ", " seize "),
            (" size ", "\tsize "),
            (" size ", " size 00"),
            (" every ", " size "),
            (" every ", " every\t"),
            (" every ", " every 9"),
            (" every ", " every"),
            (" jitter ", " jiter "),
            (" jitter ", " jitter -"),
            (" jitter ", " jitter 0"),
            ("\n", "\r\n"),
            ("\n", " \n"),
            ("\n", ""),
        ]);
        let found = sheet[at..].windows(word.len()).position(|part| part == word.as_bytes());
        if let Some(place) = found {
            sheet.splice(at + place..at + place + word.len(), other.bytes());
        }
    }

    // -----------------------------------------------------------------------------------------------------------------
    // Tables and windows
    // -----------------------------------------------------------------------------------------------------------------

    /// A list and a table for it: planned where the list can be, and then damaged half the time.
    pub fn list_and_table(&mut self) -> (Vec<u8>, Vec<u8>) {
        let flows = self.flows();
        let table = samples::planned(&samples::list(&flows)).unwrap_or_else(|| self.any_table(&flows));
        self.damaged(flows, table)
    }

    /// The flows as a list, and the table, both damaged now and then.
    fn damaged(&mut self, mut flows: Vec<Fields>, mut table: Vec<u8>) -> (Vec<u8>, Vec<u8>) {
        if self.one_in(3) {
            self.damage_records(&mut table, &flows);
        }
        if self.one_in(4) {
            self.shift_flow(&mut table, &flows);
        }
        if self.one_in(10) {
            self.damage_packed(&mut table, 8, 5);
        }
        if self.one_in(6) {
            self.vary_flows(&mut flows);
        }
        if self.one_in(10) {
            self.damage_flows(&mut flows);
        }
        let mut list = samples::list(&flows);
        if self.one_in(30) {
            self.damage_packed(&mut list, 4, 6);
        }
        (list, table)
    }

    /// A table that has the grants of each flow at a nominal time of any choice, each late by any choice, one after
    /// another: legal now and then.
    fn any_table(&mut self, flows: &[Fields]) -> Vec<u8> {
        let (frame, cycle) = (frame(flows), cycle(flows));
        let mut grants = Vec::new();
        for &[number, _, interval, jitter] in flows {
            let first = self.between(0, interval - 1);
            for nominal in (first..cycle).step_by(interval as usize) {
                let late = if self.one_in(2) { 0 } else { self.between(0, jitter) };
                grants.push([nominal + late, number, late]);
            }
        }
        grants.sort();
        grants.dedup_by_key(|grant| grant[0]);
        grants.retain(|grant| grant[0] < 4096);
        grants.truncate(1024);
        samples::table(cycle, frame, &grants)
    }

    /// Changes a start, a late, a number or spare bits, or removes, doubles or swaps records.
    fn damage_records(&mut self, table: &mut Vec<u8>, flows: &[Fields]) {
        let count = (table.len() - 8) / 5;
        if count == 0 {
            return;
        }
        let place = 8 + 5 * self.below(count);
        let other = 8 + 5 * self.below(count);
        let record = &mut table[place..place + 5];
        let change = self.pick(&[1, 1, 2, 0xFFF, 0xFFF, 0xFFE, 8, 0x100]);
        match self.below(12) {
            0 => add(record, change, 0),
            1 => add(record, 0, change),
            2 => add(record, change, change),
            3 => record[4] |= 1 << self.below(6),
            4 => drop(table.drain(place..place + 5)),
            5 => {
                let record = record.to_vec();
                table.splice(place..place, record);
            }
            6 => {
                for byte in 0..5 {
                    table.swap(place + byte, other + byte);
                }
            }
            7 => {
                // The flow number alone: of another flow, or of none.
                let number = if self.one_in(2) { self.between(0, 1023) } else { self.pick(flows)[NUMBER] };
                record[0] = (number >> 2) as u8;
                record[1] = record[1] & 0x3F | (number << 6) as u8;
            }
            8 => table[4 + self.below(4)] ^= 1 << self.below(8),
            9 => add(&mut table[other..other + 5], 0xFFF, 0xFFF),
            10 => record.fill(0),
            _ => record[self.below(5)] = self.next() as u8,
        }
        set_count(table);
    }

    /// Changes start or late of every grant of a flow alike, or of every grant from a record on: the steps stay right.
    fn shift_flow(&mut self, table: &mut [u8], flows: &[Fields]) {
        let number = self.pick(flows)[NUMBER];
        let change = self.pick(&[1, 1, 2, 3, 0xFFF, 0xFFF, 0xFFE, 0xFF0]);
        let [start, late] = self.pick(&[[change, 0], [0, change], [change, change]]);
        let all_from = if self.one_in(2) { Some(self.below(table.len() / 5)) } else { None };
        for (index, record) in table[8..].chunks_exact_mut(5).enumerate() {
            if all_from.map_or(number_of(record) == number, |first| index >= first) {
                add(record, start, late);
            }
        }
    }

    /// Changes flows after their planning, so that the table may break another rule: more size, less jitter, another
    /// order, one flow more or fewer, another interval.
    fn vary_flows(&mut self, flows: &mut Vec<Fields>) {
        let index = self.below(flows.len());
        let number = self.between(1, 1023);
        let several = flows.len() > 1;
        let flow = &mut flows[index];
        match self.below(8) {
            0 | 1 => flow[SIZE] = (flow[SIZE] + self.between(1, 3)).min(flow[INTERVAL]),
            2 => flow[JITTER] /= 2,
            3 => flow[JITTER] = flow[INTERVAL] - 1,
            4 => flows.reverse(),
            5 if several => drop(flows.remove(index)),
            6 => {
                let interval = flow[INTERVAL];
                flows.push([number, 1, interval, 0]);
            }
            _ => flow[INTERVAL] *= self.between(1, 2),
        }
    }

    /// Window ends of all kinds: in the cycle, at its end, past it, crossed, equal and very large.
    fn window(&mut self, table: &[u8]) -> (u64, u64) {
        let cycle = if table.len() < 6 { 8 } else { u64::from(table[4]) << 8 | u64::from(table[5]) };
        let mut ends = [0; 2].map(|_| match self.below(10) {
            0 => 0,
            1 => cycle,
            2 => cycle + 1,
            3 => self.pick(&[4095, 4096, 65_535, 65_536, 1 << 32, (1 << 32) + 1, 1 << 63, u64::MAX]),
            4 => self.next() >> self.below(64),
            _ => self.below(cycle as usize + 1) as u64,
        });
        if !self.one_in(10) {
            ends.sort();
        }
        if self.one_in(10) {
            ends[1] = ends[0];
        }
        ends.into()
    }

    // -----------------------------------------------------------------------------------------------------------------
    // Live add
    // -----------------------------------------------------------------------------------------------------------------

    /// A new flow for a list and a table, seven times in eight for a pair that passes, and two in three in rooms that
    /// are just long enough.
    pub fn live_add(&mut self) -> Case {
        let (flows, table) = self.passing_pair();
        let flow = self.new_flow(&flows, &table);
        let grants = u64::from(cycle(&flows)).checked_div(flow[INTERVAL]).unwrap_or(1) as usize;
        let (list, table) = if self.one_in(8) { self.damaged(flows, table) } else { (samples::list(&flows), table) };
        let mut rooms = [list.len() + 6, table.len() + 5 * grants];
        if self.one_in(3) {
            let either = self.below(2);
            rooms[either] = self.room_about(rooms[either], [base::LONGEST_LIST, base::LONGEST_TABLE][either]);
        }
        Case::LiveAdd { list, table, flow, rooms }
    }

    /// Flows and a table that passes for them: planned or scattered, and half the time with gaps that flows have left.
    fn passing_pair(&mut self) -> (Vec<Fields>, Vec<u8>) {
        loop {
            let mut flows = match self.below(12) {
                0 => self.flows_about_128(),
                1 => self.flows_near_1024_grants(),
                _ => self.flows(),
            };
            let table =
                if self.one_in(4) { self.scattered(&mut flows) } else { samples::planned(&samples::list(&flows)) };
            if let Some(mut table) = table {
                if self.one_in(2) {
                    self.leave_gaps(&mut flows, &mut table);
                }
                return (flows, table);
            }
        }
    }

    /// 126 to 128 flows, of which one alone has the shortest interval.
    fn flows_about_128(&mut self) -> Vec<Fields> {
        let frame = self.pick(&[8, 16, 24, 32]);
        let cycle = frame * self.pick(&[32, 64, 128]);
        let count = self.pick(&[126, 127, 127, 128, 128]);
        let most = (cycle - cycle / frame) / count;
        let mut flows = vec![[1, 1, frame, frame - 1]];
        for number in 2..=count {
            flows.push([number, self.between(1, most), cycle, self.between(0, cycle - 1)]);
        }
        self.arrange(&mut flows);
        flows
    }

    /// A table with the flows anywhere and their grants late by any choice. Flows that find no room are left out; none
    /// if the table then has another cycle or frame.
    fn scattered(&mut self, flows: &mut Vec<Fields>) -> Option<Vec<u8>> {
        let (cycle, frame) = (cycle(flows), frame(flows));
        let mut free = vec![true; cycle as usize];
        let mut grants = Vec::new();
        flows.retain(|&[number, size, interval, jitter]| {
            let most_late = self.pick(&[0, 0, jitter.min(2), jitter]);
            (0..8).any(|_| {
                let first = self.between(0, interval - 1);
                let nominal = (first..cycle).step_by(interval as usize);
                let new: Vec<_> = nominal.map(|nominal| (nominal, self.between(0, most_late))).collect();
                let slots = |&(nominal, late): &(u32, u32)| (nominal + late) as usize..(nominal + late + size) as usize;
                // No grant reaches into the next of the same flow.
                let apart = new.windows(2).all(|two| slots(&two[0]).end <= slots(&two[1]).start);
                let fits =
                    apart && new.iter().all(|grant| free.get(slots(grant)).is_some_and(|part| !part.contains(&false)));
                if fits {
                    for grant in &new {
                        free[slots(grant)].fill(false);
                        grants.push([grant.0 + grant.1, number, grant.1]);
                    }
                }
                fits
            })
        });
        grants.sort();
        let table = samples::table(cycle, frame, &grants);
        let list = samples::list(flows);
        (base::check(&list, &table) == Ok(())).then_some(table)
    }

    /// Takes flows out of the list and the table, as long as others have the shortest and the longest interval.
    fn leave_gaps(&mut self, flows: &mut Vec<Fields>, table: &mut Vec<u8>) {
        let span = (frame(flows), cycle(flows));
        for _ in 0..self.pick(&[1, 1, 2, 4, 40]) {
            let mut fewer = flows.clone();
            let [number, ..] = fewer.remove(self.below(flows.len()));
            if !fewer.is_empty() && (frame(&fewer), cycle(&fewer)) == span {
                *flows = fewer;
                let records: Vec<_> = table[8..].chunks_exact(5).filter(|record| number_of(record) != number).collect();
                *table = [&table[..8], &records.concat()].concat();
                set_count(table);
            }
        }
    }

    /// A flow to add to a pair that passes: most keep all rules.
    fn new_flow(&mut self, flows: &[Fields], table: &[u8]) -> [u64; 4] {
        let mut number = self.between(1, 1023);
        while flows.iter().any(|flow| flow[NUMBER] == number) {
            number = number % 1023 + 1;
        }
        let interval = self.new_interval(flows);
        let most = interval.min(4095);
        let size = match self.below(8) {
            0 => self.between(1, most),
            // What only just fits, or just does not.
            1 | 2 => (greatest_size(number, interval, flows, table) + self.between(0, 1)).clamp(1, most),
            _ => self.between(1, most.min(3)),
        };
        let tightness = self.below(5);
        let jitter = self.jitter(tightness, interval, interval == frame(flows));
        let mut flow = [number, size, interval, jitter].map(u64::from);
        if self.one_in(20) {
            flow[NUMBER] = self.pick(flows)[NUMBER].into();
        }
        if self.one_in(10) {
            self.damage_new_flow(&mut flow);
        }
        flow
    }

    /// An interval for a new flow: one of the list's, one between them, below the frame, over the cycle, or unrelated.
    fn new_interval(&mut self, flows: &[Fields]) -> u32 {
        let (frame, cycle) = (frame(flows), cycle(flows));
        match self.below(16) {
            0 => frame,
            1..5 => cycle,
            5 => self.divisor(cycle / frame) * frame,
            6 => self.divisor(frame),
            7 => cycle * self.between(1, 4096 / cycle),
            8 => self.pick(flows)[INTERVAL] + 1,
            _ => self.pick(flows)[INTERVAL],
        }
    }

    /// A divisor of a number, of any size.
    fn divisor(&mut self, number: u32) -> u32 {
        let divisors: Vec<u32> = (1..=number).filter(|&divisor| number.is_multiple_of(divisor)).collect();
        self.pick(&divisors)
    }

    /// Brings a field of a new flow to a limit or past it, or past the width of a field or of a machine's word.
    fn damage_new_flow(&mut self, flow: &mut [u64; 4]) {
        let interval = flow[INTERVAL];
        let field = self.below(4);
        match self.below(8) {
            0 => flow[NUMBER] = self.pick(&[0, 1, 1023, 1024, 1025]),
            1 => flow[SIZE] = self.pick(&[0, interval, interval + 1, 4095, 4096]),
            2 => flow[INTERVAL] = self.pick(&[0, 1, 4095, 4096, 4097, 8192]),
            3 => flow[JITTER] = self.pick(&[interval - 1, interval, 4095, 4096, 8191]),
            4 => flow[field] += 1 << self.pick(&[10, 12, 13, 16]),
            5 => flow[field] += 1 << self.pick(&[31, 32, 33, 63]),
            6 => flow[field] = self.next() >> self.below(64),
            _ => flow[field] = self.pick(&[u64::MAX, 1 << 32, u64::from(u32::MAX), 65_536]),
        }
    }

    // -----------------------------------------------------------------------------------------------------------------
    // Modem settings
    // -----------------------------------------------------------------------------------------------------------------

    /// A run of encodings for a channel, half of them as they should be.
    pub fn list_from_settings(&mut self) -> Case {
        let mut channel = self.channel();
        let mut encodings = self.encodings(channel);
        for _ in 0..self.pick(&[0, 0, 0, 0, 0, 1, 1, 2]) {
            self.damage_asked(&mut encodings, channel);
        }
        let mut run: Vec<_> = encodings.iter().map(|asked| self.settings(asked)).collect();
        for _ in 0..self.pick(&[0, 0, 0, 0, 0, 0, 1, 2]) {
            self.damage_settings(&mut run);
        }
        let mut settings = run.iter().flat_map(|settings| encoding(settings)).collect();
        if self.one_in(8) {
            self.damage_run(&mut settings);
        }
        if self.one_in(12) {
            self.damage_channel(&mut channel);
        }
        let room =
            self.room(base::LONGEST_LIST, |room| base::list_from_settings(&settings, channel[0], channel[1], room));
        Case::ListFromSettings { settings, channel, room }
    }

    /// The microseconds and the bytes of a slot.
    fn channel(&mut self) -> [u64; 2] {
        let microseconds = match self.below(4) {
            0 => self.between(1, 1000),
            _ => self.pick(&[1, 2, 5, 6, 25, 50, 125, 1000]),
        };
        let bytes = match self.below(4) {
            0 => self.between(1, 300),
            _ => self.pick(&[1, 2, 8, 16, 16, 24, 64]),
        };
        [microseconds, bytes].map(u64::from)
    }

    /// Another channel than that which the encodings are for: a value of 0, any or very large.
    fn damage_channel(&mut self, channel: &mut [u64; 2]) {
        let value = &mut channel[self.below(2)];
        *value = match self.below(8) {
            0 | 1 => 0,
            2 => *value + 1,
            3 => *value * 2,
            4 => 1,
            5 => self.pick(&[65_535, 65_536, u64::from(u32::MAX), 1 << 32, (1 << 32) + 1, 1 << 63, u64::MAX]),
            6 => *value + (1 << self.pick(&[16, 32, 48, 63])),
            _ => self.next() >> self.below(64),
        };
        if self.one_in(20) {
            *channel = self.pick(&[[0, 0], [u64::MAX, u64::MAX], [1, 1]]);
        }
    }

    /// What the encodings of a run ask for, mostly with fields that keep their rules and related intervals: one to six
    /// of them, or some that come to about 128 flows.
    fn encodings(&mut self, channel: [u64; 2]) -> Vec<Asked> {
        let intervals = self.intervals();
        let tightness = self.below(8);
        let about_128 = self.one_in(8);
        let mut flows = if about_128 { self.between(125, 131) } else { self.between(1, 6) };
        let most_grants = self.pick(&[1, 1, 4, 40, 128, 255]);
        let mut encodings = Vec::new();
        while flows > 0 {
            let interval = self.pick(&intervals);
            let size = match self.below(4) {
                0 => self.between(1, interval.min(4095)),
                _ => self.between(1, interval.min(12)),
            };
            let jitter = self.jitter(tightness, interval, interval == intervals[0]);
            let mut asked = self.asked([size, interval, jitter], channel);
            if about_128 {
                asked.grants = self.between(1, most_grants.min(flows)) as u8;
                flows -= u32::from(asked.grants);
                // None of this one, now and then.
                if self.one_in(40) {
                    encodings.push(Asked { grants: 0, ..asked });
                }
            } else {
                asked.grants = self.pick(&[1, 1, 1, 1, 1, 2, 2, 3, 8, 0]);
                flows -= 1;
            }
            encodings.push(asked);
        }
        encodings
    }

    /// What asks for this size, interval and jitter in slots: the most bytes, the fewest or any, and so of the jitter's
    /// microseconds. No number is over what its setting can hold.
    fn asked(&mut self, [size, interval, jitter]: [u32; 3], [microseconds, bytes]: [u64; 2]) -> Asked {
        let within = |random: &mut Random, slot: u64| match random.below(4) {
            0 => 0,
            1 => slot - 1,
            _ => random.below(slot as usize) as u64,
        };
        let size = u64::from(size) * bytes - within(self, bytes);
        let jitter = u64::from(jitter) * microseconds + within(self, microseconds);
        Asked {
            size: size.min(0xFFFF) as u16,
            interval: interval * microseconds as u32,
            jitter: jitter as u32,
            grants: 1,
        }
    }

    /// Brings what one encoding asks for to a limit or past it, or spoils what the encodings have to do with one
    /// another.
    fn damage_asked(&mut self, encodings: &mut Vec<Asked>, [microseconds, bytes]: [u64; 2]) {
        let index = self.below(encodings.len());
        let other = self.pick(encodings);
        let slot = microseconds as u32;
        let asked = &mut encodings[index];
        match self.below(16) {
            0 => asked.size = self.pick(&[0, 0, 1, 2, 65_534, 65_535]),
            // The most bytes that the interval's slots hold, or one more.
            1 | 2 => {
                let most = u64::from(asked.interval) / microseconds * bytes;
                asked.size = (most + self.below(2) as u64).min(0xFFFF) as u16;
            }
            3 => asked.interval = self.pick(&[0, 1, 4095, 4096, 4097, 8191, 8192]) * slot,
            4 => asked.interval = self.pick(&[0, 1, u32::MAX, u32::MAX - 1, 1 << 31, 1 << 16]),
            5 => asked.interval = asked.interval.wrapping_add(self.pick(&[1, u32::MAX])),
            6 => asked.interval = asked.interval.wrapping_add(self.between(0, slot)),
            // Unrelated, mostly.
            7 | 8 => asked.interval = asked.interval.wrapping_add(slot),
            9 => asked.interval = asked.interval.wrapping_mul(self.between(1, 300)),
            // The most microseconds that are less than the interval, or one more.
            10 | 11 => asked.jitter = asked.interval.wrapping_sub(self.between(0, 1)),
            12 => asked.jitter = self.pick(&[0, 1, u32::MAX, 1 << 31, 8191 * slot, 8192 * slot]),
            13 => asked.grants = self.pick(&[0, 0, 1, 126, 127, 128, 129, 254, 255]),
            14 => {
                for asked in encodings {
                    asked.grants = 0;
                }
            }
            _ => {
                let count = self.pick(&[7, 40, 127, 128, 129, 200, 300]);
                encodings.resize(count, Asked { grants: 1, ..other });
            }
        }
    }

    /// The settings of an encoding: the four in any order, half the time with others among them.
    fn settings(&mut self, asked: &Asked) -> Vec<Setting> {
        let mut settings = vec![
            (19, asked.size.to_be_bytes().to_vec()),
            (20, asked.interval.to_be_bytes().to_vec()),
            (21, asked.jitter.to_be_bytes().to_vec()),
            (22, vec![asked.grants]),
        ];
        if self.one_in(2) {
            let others = self.pick(&[1, 2, 4, 12, 100]);
            let longest = self.pick(&[0, 1, 4, 4, 12, 234]);
            while settings.len() < 4 + others {
                let other = self.other_setting(longest);
                settings.push(other);
                if length(&settings) > 255 {
                    settings.pop();
                    break;
                }
            }
        }
        if !self.one_in(4) {
            self.shuffle(&mut settings);
        }
        settings
    }

    /// A setting that is none of the four, with any value or one that looks like settings itself.
    fn other_setting(&mut self, longest: usize) -> Setting {
        let kind = match self.below(3) {
            0 => self.pick(&[0, 1, 4, 15, 16, 18, 23, 24, 25, 255]),
            _ => match self.next() as u8 {
                19..=22 => 43,
                kind => kind,
            },
        };
        let bytes = self.below(longest + 1);
        let value = match self.below(3) {
            0 => (0..bytes).map(|_| self.pick(&[0, 1, 2, 4, 19, 20, 21, 22, 24, 255])).collect(),
            _ => (0..bytes).map(|_| self.next() as u8).collect(),
        };
        (kind, value)
    }

    /// Leaves out or repeats a setting of an encoding, changes its type or its value's length, or takes it to another
    /// encoding. The encodings themselves stay whole.
    fn damage_settings(&mut self, run: &mut [Vec<Setting>]) {
        let (encoding, other) = (self.below(run.len()), self.below(run.len()));
        let settings = &mut run[encoding];
        if settings.is_empty() {
            return;
        }
        let count = settings.len();
        // Mostly one of the four.
        let four = settings.iter().position(|setting| (19..=22).contains(&setting.0)).unwrap_or(0);
        let at = if self.one_in(2) { four } else { self.below(count) };
        match self.below(10) {
            0..3 => drop(settings.remove(at)),
            3 => {
                let again = settings[at].clone();
                settings.insert(self.below(count + 1), again);
            }
            4 => {
                // Again with another value, or with one of another length.
                let mut again = settings[at].clone();
                again.1 = vec![self.next() as u8; self.pick(&[0, 1, 2, 4])];
                settings.insert(self.below(count + 1), again);
            }
            5 => drop(settings[at].1.pop()),
            6 => settings[at].1.push(self.pick(&[0, 1, 255])),
            7 => settings[at].0 = self.pick(&[0, 18, 19, 20, 21, 22, 23, 24, 255]),
            8 => settings.clear(),
            _ => {
                let setting = settings.remove(at);
                run[other].push(setting);
            }
        }
        while length(&run[encoding]) > 255 || length(&run[other]) > 255 {
            run[encoding].pop();
            run[other].pop();
        }
    }

    /// Spoils the bytes of a run: cut off, one changed, left out or more, a length off by one, another type.
    fn damage_run(&mut self, run: &mut Vec<u8>) {
        if run.is_empty() {
            return;
        }
        let at = self.below(run.len());
        let (top, inside) = starts(run);
        match self.below(16) {
            0 => run.truncate(run.len() - 1),
            1 => run.truncate(at),
            2 => run.truncate(self.pick(&top) + self.below(3)),
            3 => run.clear(),
            4 => run[at] ^= 1 << self.below(8),
            5 => run[at] = self.next() as u8,
            6 => drop(run.remove(at)),
            7 => run.insert(at, self.pick(&[0, 1, 2, 4, 19, 20, 21, 22, 24, 255])),
            8 => run.push(self.pick(&[0, 24, 255])),
            9 => run.extend(self.pick(&[[24, 0], [24, 1], [0, 0], [255, 0]])),
            10 => run[self.pick(&top)] = self.pick(&[0, 22, 23, 25, 26, 255]),
            11 | 12 => {
                let length = &mut run[self.pick(&top) + 1];
                *length = length.wrapping_add(self.pick(&[1, 1, 2, 254, 255, 255]));
            }
            13 | 14 if !inside.is_empty() => {
                let length = &mut run[self.pick(&inside) + 1];
                *length = length.wrapping_add(self.pick(&[1, 1, 2, 254, 255, 255]));
            }
            _ => {
                for byte in &mut *run {
                    if self.one_in(20) {
                        *byte = self.next() as u8;
                    }
                }
            }
        }
    }

    // -----------------------------------------------------------------------------------------------------------------
    // Rounding
    // -----------------------------------------------------------------------------------------------------------------

    /// A list and a base, more than half of them such that the list can be rounded.
    pub fn round_list(&mut self) -> Case {
        let (mut flows, meant) = self.flows_and_base();
        let base = self.base(&flows, meant);
        if self.one_in(8) {
            self.damage_flows(&mut flows);
        }
        let mut list = samples::list(&flows);
        if self.one_in(10) {
            self.damage_packed(&mut list, 4, 6);
        }
        let room = self.room(base::LONGEST_LIST, |room| base::round_list(&list, base, room));
        Case::RoundList { list, base, room }
    }

    /// Flows that keep the rules of their fields, and a base that none of their intervals is below: related flows with
    /// their frame or a divisor of it, or flows of any intervals.
    fn flows_and_base(&mut self) -> (Vec<Fields>, u32) {
        if self.one_in(5) {
            let flows = self.flows();
            let base = if self.one_in(2) { frame(&flows) } else { self.divisor(frame(&flows)) };
            return (flows, base);
        }
        let base = match self.below(6) {
            0 => self.between(1, 4096),
            1 => self.pick(&[1, 2, 3, 1023, 1024, 2047, 2048, 2049, 4095, 4096]),
            2 => 1 << self.below(13),
            _ => self.between(1, 100),
        };
        let most = self.pick(&[1, 2, 3, 4, 6, 12, 48, 128]);
        let count = if self.one_in(4) { most } else { self.between(1, most) };
        // A size over the rounded interval spoils the whole list: in few lists, and there in few flows.
        let oversized = self.one_in(6);
        let mut flows: Vec<_> = (1..=count)
            .map(|number| {
                let oversized = oversized && self.one_in(count as usize);
                self.flow_to_round(number, base, oversized)
            })
            .collect();
        self.arrange(&mut flows);
        (flows, base)
    }

    /// A flow whose interval becomes the base times some power of two, from the shortest such interval to the longest:
    /// with a size up to the new interval or over it, and a jitter about the new interval or any.
    fn flow_to_round(&mut self, number: u32, base: u32, oversized: bool) -> Fields {
        let rounded = base << self.between(0, (4096 / base).ilog2());
        let longest = (2 * rounded - 1).min(4096);
        let interval = match self.below(6) {
            0 => rounded,
            1 => longest,
            2 => longest.min(rounded + 1),
            _ => self.between(rounded, longest),
        };
        let greatest = rounded.min(4095);
        let size = match self.below(8) {
            _ if oversized => (rounded + 1).max(self.between(rounded, interval)).min(interval).min(4095),
            0 => greatest,
            1 | 2 => self.between(1, greatest),
            _ => self.between(1, greatest.min(4)),
        };
        let jitter = match self.below(6) {
            0 => 0,
            1 => rounded - 1,
            2 => rounded.min(interval - 1),
            3 => interval - 1,
            _ => self.between(0, interval - 1),
        };
        [number, size, interval, jitter]
    }

    /// A base: mostly that which is meant for the flows, and otherwise one at a limit, about the shortest interval, any
    /// or very large.
    fn base(&mut self, flows: &[Fields], meant: u32) -> u64 {
        let (meant, shortest) = (u64::from(meant), u64::from(frame(flows)));
        match self.below(24) {
            0 => self.pick(&[0, 0, 4097, 4098]),
            1 => self.pick(&[1, 2, 4095, 4096]),
            2 => self.pick(&[shortest - 1, shortest, shortest + 1]),
            3 => self.between(1, 4096).into(),
            4 => self.pick(&[8192, 65_535, 65_536, u64::from(u32::MAX), 1 << 32, (1 << 32) + 1, 1 << 63, u64::MAX]),
            // What is right once it is cut to the width of a field or of a machine's word.
            5 => meant + (1 << self.pick(&[13, 16, 32, 48, 63])),
            6 => self.next() >> self.below(64),
            _ => meant,
        }
    }
}

/// What an encoding asks for: the size in bytes, the interval and the jitter in microseconds, the grants per interval.
#[derive(Clone, Copy)]
struct Asked {
    size: u16,
    interval: u32,
    jitter: u32,
    grants: u8,
}

/// A setting's type and value.
type Setting = (u8, Vec<u8>);

/// The bytes of these settings.
fn length(settings: &[Setting]) -> usize {
    settings.iter().map(|(_, value)| 2 + value.len()).sum()
}

/// The encoding of these settings, which are at most 255 bytes.
fn encoding(settings: &[Setting]) -> Vec<u8> {
    let settings: Vec<u8> = settings.iter().flat_map(|(kind, value)| samples::setting(*kind, value)).collect();
    samples::setting(24, &settings)
}

/// Where the encodings of a run start, and the settings in them; each with a length that is right.
fn starts(run: &[u8]) -> (Vec<usize>, Vec<usize>) {
    let (mut top, mut inside) = (Vec::new(), Vec::new());
    let mut next = 0;
    while next < run.len() {
        top.push(next);
        let end = next + 2 + usize::from(run[next + 1]);
        next += 2;
        while next < end {
            inside.push(next);
            next += 2 + usize::from(run[next + 1]);
        }
    }
    (top, inside)
}

/// The greatest size at which a new flow of this number and interval fits into a pair, 0 if it fits at none.
fn greatest_size(number: u32, interval: u32, flows: &[Fields], table: &[u8]) -> u32 {
    let list = samples::list(flows);
    let mut rooms = ([0; base::LONGEST_LIST], [0; base::LONGEST_TABLE]);
    let (mut fits, mut past) = (0, interval.min(4095) + 1);
    while past - fits > 1 {
        let size = (fits + past) / 2;
        let flow = [number, size, interval, 0].map(u64::from);
        match base::live_add(&list, table, flow, &mut rooms.0, &mut rooms.1) {
            Ok(_) => fits = size,
            Err(_) => past = size,
        }
    }
    fits
}

/// The shortest interval of these flows.
fn frame(flows: &[Fields]) -> u32 {
    flows.iter().map(|flow| flow[INTERVAL]).min().unwrap_or(1)
}

/// The longest interval of these flows.
fn cycle(flows: &[Fields]) -> u32 {
    flows.iter().map(|flow| flow[INTERVAL]).max().unwrap_or(1)
}

/// The flow number of a table record.
fn number_of(record: &[u8]) -> u32 {
    u32::from(record[0]) << 2 | u32::from(record[1]) >> 6
}

/// Sets the count of a table to that of its records.
fn set_count(table: &mut [u8]) {
    let count = ((table.len() - 8) / 5) as u16;
    table[2..4].copy_from_slice(&count.to_be_bytes());
}

/// Adds to the start and the late of a table record, each within its width.
fn add(record: &mut [u8], start: u64, late: u64) {
    let bits = record.iter().fold(0, |bits, &byte| bits << 8 | u64::from(byte));
    let moved = |shift: u32, by: u64| (((bits >> shift) + by) & 0xFFF) << shift;
    let bits = bits & !(0xFFF_FFF << 6) | moved(18, start) | moved(6, late);
    record.copy_from_slice(&bits.to_be_bytes()[3..]);
}
