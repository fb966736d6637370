//! Nanoseconds for each call of the base and of the library, and their ratio.
//!
//! `bench rows` prints the names of the rows alone, and `bench ROW base N` or `bench ROW library N` makes N calls more of one of them:
//! under an instruction counter one call's instructions are what N = 1 takes more than N = 0 (`.ci/instructions`).

use harness::base::{self, Refusal};
use harness::{library, samples};
use std::hint::black_box;
use std::time::{Duration, Instant};

/// Runs of each measurement; their median is printed.
const RUNS: usize = 301;
/// The time of one run, about: so short that on a busy machine most runs are not interrupted.
const RUN_TIME: Duration = Duration::from_micros(200);
/// The time of the warm-up.
const WARM_UP: Duration = Duration::from_millis(20);

fn main() {
    if std::env::args().len() == 1 {
        println!("Median of {RUNS} runs after a warm-up. A room is made once and not cleared between calls, so each call");
        println!("writes over the same bytes that it wrote before; no time of clearing or allocating is in the numbers.");
        println!();
        println!("{:62} {:>10} {:>10} {:>7}", "", "base ns", "library ns", "ratio");
    }
    for (name, flows) in [
        ("case A, 3 flows, 4 grants", samples::CASE_A.to_vec()),
        ("128 flows over 256 frames, long pushes", samples::long_pushes()),
        ("128 flows over 256 frames, eight intervals, 629 grants", samples::eight_intervals()),
        ("8 flows, 1,024 grants", samples::most_grants()),
    ] {
        let flows = samples::numbered(&flows);
        let (list, sheet) = (samples::list(&flows), samples::sheet(&flows));
        let table = samples::planned(&list).expect("the list can be planned");
        let cycle = u64::from(u16::from_be_bytes([table[4], table[5]]));

        writing(&format!("plan: {name}"), &list, base::LONGEST_TABLE, base::plan, library::plan);
        compare(
            &format!("check: {name}"),
            || base::check(black_box(&list), black_box(&table)),
            || library::check(black_box(&list), black_box(&table)),
        );
        compare(
            &format!("window, second quarter: {name}"),
            || base::window(black_box(&table), cycle / 4, cycle / 2),
            || library::window(black_box(&table), cycle / 4, cycle / 2),
        );
        sheets(name, &list, &sheet);
    }
    let longest = samples::longest_sheet();
    sheets("128 lines, four digits everywhere", &samples::list(&longest), &samples::sheet(&longest));

    adding("case C, 3 grants, 1 more", &samples::CASE_C, (2, 8, 0));
    // The only place for so many slots is found late; the new list is the longest there is.
    adding("127 flows, 28 slots free, 1 more", &samples::nearly_full(), (6, 4096, 0));
    // The most offsets: the new grant is the table's last, and the new table is the longest there is.
    adding("1,023 grants, full to the last 4 slots", &samples::full_to_the_last_frame(), (4, 4096, 0));
    // The most grants for an offset, and to be put between others.
    adding("612 grants, 256 more between them", &samples::last_slots_free(), (1, 16, 0));

    settings("2 encodings, 3 flows", &samples::small_settings());
    settings("128 encodings, 1 grant each", &samples::settings_one_by_one());
    settings("1 encoding, 128 grants", &samples::settings_all_in_one());
    settings("128 encodings, 41 other settings in each", &samples::settings_among_others());

    rounding("3 flows, base 20", &samples::PAGING, 20);
    rounding("128 flows, base 20", &samples::unrelated(), 20);
    // The most powers of two.
    rounding("128 flows, base 1", &samples::unrelated(), 1);
    // Refused by 28 at the last record.
    let list = samples::list(&samples::numbered(&samples::unrelated()));
    measure(
        "rounding: 128 flows, base 21, refused",
        || base::round_list(black_box(&list), black_box(21), &mut []),
        || library::round_list(black_box(&list), black_box(21), &mut []),
    );
}

/// Adds a flow to the planned table of others.
fn adding(name: &str, flows: &[samples::Flow], (size, interval, jitter): samples::Flow) {
    let list = samples::list(&samples::numbered(flows));
    let table = samples::planned(&list).expect("the list can be planned");
    let flow = [flows.len() as u32 + 1, size, interval, jitter].map(u64::from);
    let mut our_rooms = (vec![0; base::LONGEST_LIST], vec![0; base::LONGEST_TABLE]);
    let mut their_rooms = our_rooms.clone();
    compare(
        &format!("live add: {name}"),
        || {
            let (list_room, table_room) = black_box(&mut our_rooms);
            base::live_add(black_box(&list), black_box(&table), black_box(flow), list_room, table_room)
        },
        || {
            let (list_room, table_room) = black_box(&mut their_rooms);
            library::live_add(black_box(&list), black_box(&table), black_box(flow), list_room, table_room)
        },
    );
    assert!(our_rooms == their_rooms, "{name}: the rooms differ");
}

/// Turns settings into a list.
fn settings(name: &str, settings: &[u8]) {
    let [microseconds, bytes] = samples::CHANNEL;
    writing(
        &format!("settings to list: {name}"),
        settings,
        base::LONGEST_LIST,
        |settings, room| base::list_from_settings(settings, black_box(microseconds), black_box(bytes), room),
        |settings, room| library::list_from_settings(settings, black_box(microseconds), black_box(bytes), room),
    );
}

/// Rounds the intervals of flows to a base.
fn rounding(name: &str, flows: &[samples::Flow], base: u64) {
    let list = samples::list(&samples::numbered(flows));
    writing(
        &format!("rounding: {name}"),
        &list,
        base::LONGEST_LIST,
        |list, room| base::round_list(list, black_box(base), room),
        |list, room| library::round_list(list, black_box(base), room),
    );
}

/// A sheet and its list, both ways.
fn sheets(name: &str, list: &[u8], sheet: &[u8]) {
    let (to_list, to_sheet) = (format!("sheet to list: {name}"), format!("list to sheet: {name}"));
    writing(&to_list, sheet, base::LONGEST_LIST, base::list_from_sheet, library::list_from_sheet);
    writing(&to_sheet, list, base::LONGEST_SHEET, base::sheet_from_list, library::sheet_from_list);
}

/// Compares an operation that reads one byte string and writes a room.
fn writing(
    name: &str,
    input: &[u8],
    room: usize,
    ours: impl Fn(&[u8], &mut [u8]) -> Result<usize, Refusal>,
    theirs: impl Fn(&[u8], &mut [u8]) -> Result<usize, Refusal>,
) {
    let (mut our_room, mut their_room) = (vec![0; room], vec![0; room]);
    compare(
        name,
        || ours(black_box(input), black_box(&mut our_room)),
        || theirs(black_box(input), black_box(&mut their_room)),
    );
    assert!(our_room == their_room, "{name}: the rooms differ");
}

/// Prints the time of both calls, which must be done and answer the same.
fn compare<T: PartialEq + std::fmt::Debug>(
    name: &str,
    mut ours: impl FnMut() -> Result<T, Refusal>,
    theirs: impl FnMut() -> Result<T, Refusal>,
) {
    let answer = ours();
    assert!(answer.is_ok(), "{name}: {answer:?}");
    measure(name, ours, theirs);
}

/// Prints the time of both calls, which must answer the same.
fn measure<T: PartialEq + std::fmt::Debug>(name: &str, mut ours: impl FnMut() -> T, mut theirs: impl FnMut() -> T) {
    let (our_answer, their_answer) = (ours(), theirs());
    assert!(our_answer == their_answer, "{name}: {our_answer:?} and {their_answer:?}");
    let asked: Vec<String> = std::env::args().skip(1).collect();
    match asked.iter().map(String::as_str).collect::<Vec<_>>()[..] {
        [] => {}
        ["rows"] => return println!("{name}"),
        [row, side, calls] => {
            for _ in 0..calls.parse().ok().filter(|_| row == name).unwrap_or(0) {
                black_box(if side == "base" { ours() } else { theirs() });
            }
            return;
        }
        _ => panic!("no argument, `rows`, or a row, a side and a number of calls"),
    }
    let (our_calls, their_calls) = (calls_in_a_run(&mut ours), calls_in_a_run(&mut theirs));
    // Turn about, so that a disturbance from outside meets both.
    let times: [_; RUNS] =
        std::array::from_fn(|_| (nanoseconds(our_calls, &mut ours), nanoseconds(their_calls, &mut theirs)));
    let (our_time, their_time) = (median(times.map(|both| both.0)), median(times.map(|both| both.1)));
    println!("{name:62} {our_time:>10.0} {their_time:>10.0} {:>7.2}", their_time / our_time);
}

fn median(mut times: [f64; RUNS]) -> f64 {
    times.sort_by(f64::total_cmp);
    times[RUNS / 2]
}

/// Warms up; answers how many calls fill a run.
fn calls_in_a_run<T>(call: &mut impl FnMut() -> T) -> u32 {
    let start = Instant::now();
    let mut least = WARM_UP;
    while start.elapsed() < WARM_UP {
        let before = Instant::now();
        black_box(call());
        least = least.min(before.elapsed());
    }
    (RUN_TIME.as_nanos() / least.as_nanos().max(1)) as u32 + 1
}

/// The time of one call over a run.
fn nanoseconds<T>(calls: u32, call: &mut impl FnMut() -> T) -> f64 {
    let start = Instant::now();
    for _ in 0..calls {
        black_box(call());
    }
    start.elapsed().as_nanos() as f64 / f64::from(calls)
}
