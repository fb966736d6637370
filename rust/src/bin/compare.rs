//! Runs random cases through `base` and through the library, and compares answers and whole rooms byte for byte.
//!
//! `compare [cases] [seed]`: 100,000 cases and seed 1 unless told otherwise. Ends with 1 at the first difference.

use harness::base::{self, Refusal};
use harness::generate::{Case, Random, ROOM_BYTE};
use harness::library;
use std::collections::BTreeMap;
use std::env;
use std::process::exit;

/// What an operation hands back, and its rooms afterwards.
#[derive(Debug, PartialEq)]
struct Outcome {
    answer: Result<(usize, usize), Refusal>,
    rooms: Vec<Vec<u8>>,
}

/// Live add, ours or theirs.
type LiveAdd = fn(&[u8], &[u8], [u64; 4], &mut [u8], &mut [u8]) -> Result<usize, Refusal>;

/// Modem settings to a list, ours or theirs.
type ListFromSettings = fn(&[u8], u64, u64, &mut [u8]) -> Result<usize, Refusal>;

/// Rounding, ours or theirs.
type RoundList = fn(&[u8], u64, &mut [u8]) -> Result<usize, Refusal>;

fn main() {
    let mut arguments = env::args().skip(1).map(|argument| argument.parse().expect("cases and seed are numbers"));
    let cases: u64 = arguments.next().unwrap_or(100_000);
    let seed: u64 = arguments.next().unwrap_or(1);
    let mut random = Random::new(seed);
    let mut counts = BTreeMap::new();
    for index in 1..=cases {
        let case = random.case();
        let (ours, theirs) = (from_base(&case), from_library(&case));
        if ours != theirs {
            println!("case {index} of seed {seed} differs");
            describe(&case, &ours, &theirs);
            exit(1);
        }
        let number = ours.answer.err().map_or(0, |refusal| refusal.number);
        *counts.entry((case.name(), number)).or_insert(0u64) += 1;
    }
    for ((name, number), count) in &counts {
        match number {
            0 => println!("{name:8} done       {count:>10}"),
            _ => println!("{name:8} refused {number:<2} {count:>10}"),
        }
    }
    println!("{cases} cases of seed {seed}: no difference");
}

fn from_base(case: &Case) -> Outcome {
    match case {
        Case::ListFromSheet { sheet, room } => written(base::list_from_sheet, sheet, *room),
        Case::SheetFromList { list, room } => written(base::sheet_from_list, list, *room),
        Case::Plan { list, room } => written(base::plan, list, *room),
        Case::Check { list, table } => outcome(base::check(list, table).map(|()| (0, 0))),
        Case::Window { table, a, b } => {
            let answer = base::window(table, *a, *b).map(|stretch| (stretch.start, stretch.end));
            // The C function has no place to give.
            outcome(answer.map_err(|refusal| Refusal { place: 0, ..refusal }))
        }
        Case::LiveAdd { list, table, flow, rooms } => added(base::live_add, list, table, *flow, *rooms),
        Case::ListFromSettings { settings, channel, room } => {
            asked(base::list_from_settings, settings, *channel, *room)
        }
        Case::RoundList { list, base, room } => rounded(base::round_list, list, *base, *room),
    }
}

fn from_library(case: &Case) -> Outcome {
    match case {
        Case::ListFromSheet { sheet, room } => written(library::list_from_sheet, sheet, *room),
        Case::SheetFromList { list, room } => written(library::sheet_from_list, list, *room),
        Case::Plan { list, room } => written(library::plan, list, *room),
        Case::Check { list, table } => outcome(library::check(list, table).map(|()| (0, 0))),
        Case::Window { table, a, b } => {
            outcome(library::window(table, *a, *b).map(|stretch| (stretch.start, stretch.end)))
        }
        Case::LiveAdd { list, table, flow, rooms } => added(library::live_add, list, table, *flow, *rooms),
        Case::ListFromSettings { settings, channel, room } => {
            asked(library::list_from_settings, settings, *channel, *room)
        }
        Case::RoundList { list, base, room } => rounded(library::round_list, list, *base, *room),
    }
}

fn written(operation: fn(&[u8], &mut [u8]) -> Result<usize, Refusal>, input: &[u8], room: usize) -> Outcome {
    let mut room = vec![ROOM_BYTE; room];
    let answer = operation(input, &mut room).map(|length| (0, length));
    Outcome { answer, rooms: vec![room] }
}

fn added(operation: LiveAdd, list: &[u8], table: &[u8], flow: [u64; 4], rooms: [usize; 2]) -> Outcome {
    let [mut list_room, mut table_room] = rooms.map(|length| vec![ROOM_BYTE; length]);
    let answer = operation(list, table, flow, &mut list_room, &mut table_room).map(|offset| (offset, 0));
    Outcome { answer, rooms: vec![list_room, table_room] }
}

fn asked(operation: ListFromSettings, settings: &[u8], channel: [u64; 2], room: usize) -> Outcome {
    let mut room = vec![ROOM_BYTE; room];
    let answer = operation(settings, channel[0], channel[1], &mut room).map(|length| (0, length));
    Outcome { answer, rooms: vec![room] }
}

fn rounded(operation: RoundList, list: &[u8], base: u64, room: usize) -> Outcome {
    let mut room = vec![ROOM_BYTE; room];
    let answer = operation(list, base, &mut room).map(|length| (0, length));
    Outcome { answer, rooms: vec![room] }
}

fn outcome(answer: Result<(usize, usize), Refusal>) -> Outcome {
    Outcome { answer, rooms: Vec::new() }
}

/// Prints the case and both outcomes, every byte string in hex.
fn describe(case: &Case, ours: &Outcome, theirs: &Outcome) {
    println!("operation {}", case.name());
    match case {
        Case::ListFromSheet { sheet, room } => {
            println!("sheet {}\nroom {room} bytes\nthe sheet as text:", hex(sheet));
            println!("{}", sheet.escape_ascii().to_string().replace("\\n", "\\n\n"));
        }
        Case::SheetFromList { list, room } | Case::Plan { list, room } => {
            println!("list {}\nroom {room} bytes", hex(list));
        }
        Case::Check { list, table } => println!("list {}\ntable {}", hex(list), hex(table)),
        Case::Window { table, a, b } => println!("table {}\na {a} b {b}", hex(table)),
        Case::LiveAdd { list, table, flow: [number, size, interval, jitter], rooms } => {
            println!("list {}\ntable {}", hex(list), hex(table));
            println!("new flow {number} size {size} every {interval} jitter {jitter}");
            println!("rooms {} and {} bytes", rooms[0], rooms[1]);
        }
        Case::ListFromSettings { settings, channel: [microseconds, bytes], room } => {
            println!("settings {}\nslots of {microseconds} microseconds and {bytes} bytes", hex(settings));
            println!("room {room} bytes");
        }
        Case::RoundList { list, base, room } => println!("list {}\nbase {base}\nroom {room} bytes", hex(list)),
    }
    if let Some(bytes) = case.bytes() {
        println!("as an outside case {}", hex(&bytes));
    }
    println!("base    {:?}\nlibrary {:?}", ours.answer, theirs.answer);
    for (ours, theirs) in ours.rooms.iter().zip(&theirs.rooms).filter(|(ours, theirs)| ours != theirs) {
        let first = ours.iter().zip(theirs).position(|(ours, theirs)| ours != theirs);
        println!("rooms differ first at byte {first:?}");
        println!("base    room {}\nlibrary room {}", hex(ours), hex(theirs));
    }
}

fn hex(bytes: &[u8]) -> String {
    bytes.iter().map(|byte| format!("{byte:02x}")).collect()
}
