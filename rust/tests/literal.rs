//! The placing rule, the check, the window, live add, modem settings and rounding once more, word by word and with no
//! regard for speed, against the base on random inputs.

use harness::base;
use harness::generate::{Case, Random};
use harness::samples;
use std::collections::BTreeMap;

/// Number, size, interval and jitter.
type Flow = [usize; 4];

fn fields(bytes: &[u8], widths: &[u32]) -> Vec<usize> {
    let bits: Vec<usize> =
        bytes.iter().flat_map(|byte| (0..8).rev().map(move |bit| usize::from(byte >> bit & 1))).collect();
    let mut rest = &bits[..];
    let mut values = Vec::new();
    for &width in widths {
        let (field, after) = rest.split_at(width as usize);
        values.push(field.iter().fold(0, |value, bit| 2 * value + bit));
        rest = after;
    }
    values
}

fn flows(list: &[u8]) -> Vec<Flow> {
    let record = |bytes: &[u8]| fields(bytes, &[10, 12, 13, 13]).try_into().expect("four fields");
    list[4..].chunks(6).map(record).collect()
}

/// A grant in a frame: its flow's index, and its nominal time once its group has ended.
#[derive(Clone, Copy)]
struct Grant {
    flow: usize,
    nominal: Option<usize>,
}

/// The starts of all grants, frame by frame, and the end of the last frame's content.
fn starts(frames: &[Vec<Grant>], flows: &[Flow], frame: usize) -> (Vec<Vec<usize>>, usize) {
    let (mut all, mut overhang, mut end) = (Vec::new(), 0, 0);
    for (index, grants) in frames.iter().enumerate() {
        let mut next = index * frame + overhang;
        let mut starts = Vec::new();
        for grant in grants {
            starts.push(next);
            next += flows[grant.flow][1];
        }
        all.push(starts);
        end = next;
        overhang = next.saturating_sub((index + 1) * frame);
    }
    (all, end)
}

/// The grants of the plan as start, flow number and late; or the record with no lawful frame.
fn place(flows: &[Flow]) -> Result<Vec<[usize; 3]>, usize> {
    let mut intervals: Vec<usize> = flows.iter().map(|flow| flow[2]).collect();
    intervals.sort();
    intervals.dedup();
    let frame = intervals[0];
    let mut layout: Vec<Vec<Grant>> = vec![Vec::new()];
    for &interval in &intervals {
        let (old, window) = (layout.len(), interval / frame);
        let later = |grant: &Grant, copy: usize| Grant {
            nominal: grant.nominal.map(|nominal| nominal + copy * old * frame),
            ..*grant
        };
        layout = (0..window)
            .map(|index| layout[index % old].iter().map(|grant| later(grant, index / old)).collect())
            .collect();
        for flow in (0..flows.len()).filter(|&flow| flows[flow][2] == interval) {
            let lawful = (0..window).find_map(|index| {
                let used: Vec<usize> = (0..=index).map(|index| reach(&layout, flows, frame, index)).collect();
                if used[index] >= frame {
                    return None;
                }
                let mut tried = layout.clone();
                tried[index].push(Grant { flow, nominal: None });
                let (starts, end) = starts(&tried, flows, frame);
                let on_time =
                    tried.iter().flatten().zip(starts.iter().flatten()).all(|(grant, &start)| {
                        grant.nominal.is_none_or(|nominal| start <= nominal + flows[grant.flow][3])
                    });
                (end <= interval && on_time).then_some(tried)
            });
            layout = lawful.ok_or(flow + 1)?;
        }
        let (starts, _) = starts(&layout, flows, frame);
        for (grant, start) in layout.iter_mut().flatten().zip(starts.into_iter().flatten()) {
            grant.nominal = grant.nominal.or(Some(start));
        }
    }
    let (starts, _) = starts(&layout, flows, frame);
    let grants = layout.iter().flatten().zip(starts.into_iter().flatten());
    Ok(grants
        .map(|(grant, start)| [start, flows[grant.flow][0], start - grant.nominal.expect("all groups have ended")])
        .collect())
}

/// The overhang and content of a frame.
fn reach(layout: &[Vec<Grant>], flows: &[Flow], frame: usize, index: usize) -> usize {
    let overhang = if index == 0 { 0 } else { reach(layout, flows, frame, index - 1).saturating_sub(frame) };
    overhang + layout[index].iter().map(|grant| flows[grant.flow][1]).sum::<usize>()
}

/// Tests 14 to 18, one after another.
fn law(flows: &[Flow], cycle: usize, grants: &[[usize; 3]]) -> (u32, u64) {
    let flow = |number: usize| flows.iter().find(|flow| flow[0] == number);
    let first = |number: u32, wrong: &dyn Fn(usize) -> bool| {
        (0..grants.len()).find(|&index| wrong(index)).map(|index| (number, index as u64 + 1))
    };
    let unknown = first(14, &|index| flow(grants[index][1]).is_none());
    if let Some(refusal) = unknown {
        return refusal;
    }
    for (record, [number, _, interval, _]) in (1..).zip(flows) {
        if grants.iter().filter(|grant| grant[1] == *number).count() != cycle / interval {
            return (15, record);
        }
    }
    let size = |index: usize| flow(grants[index][1]).expect("known")[1];
    let mistimed = |index: usize| {
        let [start, number, late] = grants[index];
        let [_, _, interval, jitter] = flow(number).expect("known");
        let before = grants[..index].iter().rfind(|grant| grant[1] == number);
        late > *jitter
            || late > start
            || match before {
                None => start - late >= *interval,
                Some([start_before, _, late_before]) => start + late_before != start_before + interval + late,
            }
    };
    first(16, &mistimed)
        .or(first(17, &|index| index > 0 && grants[index][0] < grants[index - 1][0] + size(index - 1)))
        .or(first(18, &|index| grants[index][0] + size(index) > cycle))
        .unwrap_or((0, 0))
}

fn grants(table: &[u8]) -> Vec<[usize; 3]> {
    let records = table[8..].chunks(5).map(|record| fields(record, &[10, 12, 12, 6]));
    records.map(|record| [record[1], record[0], record[2]]).collect()
}

/// A new pair: its flows, and its grants as start, flow number and late.
type NewPair = (Vec<Flow>, Vec<[usize; 3]>);

/// The offset of a new flow and the new pair, for an old pair that passes and rooms of these lengths.
fn add(list: &[u8], table: &[u8], flow: [u64; 4], rooms: [usize; 2]) -> Result<(usize, NewPair), (u32, u64)> {
    let (mut flows, mut grants) = (flows(list), grants(table));
    let (frame, cycle) = (flows.iter().map(|flow| flow[2]).min(), flows.iter().map(|flow| flow[2]).max());
    let (frame, cycle) = (frame.expect("a flow"), cycle.expect("a flow"));
    let place = flows.len() as u64 + 1;
    if place > 128 {
        return Err((3, 0));
    }
    let [number, size, interval, jitter] = flow;
    let right = (1..=1023).contains(&number)
        && (1..=4095).contains(&size)
        && (1..=4096).contains(&interval)
        && size <= interval
        && jitter < interval;
    if !right {
        return Err((4, place));
    }
    let new @ [number, size, interval, _] = flow.map(|field| field as usize);
    if flows.iter().any(|flow| flow[0] == number) {
        return Err((5, place));
    }
    if flows.iter().any(|flow| flow[2].max(interval) % flow[2].min(interval) != 0) {
        return Err((6, place));
    }
    if interval < frame || interval > cycle {
        return Err((21, 0));
    }
    let mut slots = vec![false; cycle];
    for &[start, number, _] in &grants {
        let flow = flows.iter().find(|flow| flow[0] == number).expect("the pair passes");
        slots[start..start + flow[1]].fill(true);
    }
    flows.push(new);
    if cycle / frame > 256 || flows.iter().map(|flow| cycle / flow[2]).sum::<usize>() > 1024 {
        return Err((7, 0));
    }
    let starts = |offset: usize| (0..cycle / interval).map(move |grant| offset + grant * interval);
    if rooms[0] < 4 + 6 * flows.len() || rooms[1] < 8 + 5 * (grants.len() + starts(0).count()) {
        return Err((9, 0));
    }
    let fits =
        |offset: &usize| starts(*offset).all(|start| (start..start + size).all(|slot| slots.get(slot) == Some(&false)));
    let offset = (0..interval).find(fits).ok_or((22, 0))?;
    grants.extend(starts(offset).map(|start| [start, number, 0]));
    grants.sort();
    Ok((offset, (flows, grants)))
}

/// Compares one live add with the base; answers the refusal's number, 0 if there is none.
fn compare_live_add(list: &[u8], table: &[u8], flow: [u64; 4], rooms: [usize; 2]) -> u32 {
    let [mut list_room, mut table_room] = rooms.map(|length| vec![0xA5; length]);
    let answer = base::live_add(list, table, flow, &mut list_room, &mut table_room);
    let answer = answer.map_err(|refusal| (refusal.number, refusal.place));
    let expected = match base::check(list, table) {
        Ok(()) => add(list, table, flow, rooms),
        Err(refusal) => Err((refusal.number, refusal.place)),
    };
    assert_eq!(answer, expected.clone().map(|(offset, _)| offset));
    let (mut list_bytes, mut table_bytes) = (0, 0);
    if let Ok((_, (new_flows, new_grants))) = expected {
        (list_bytes, table_bytes) = (4 + 6 * new_flows.len(), 8 + 5 * new_grants.len());
        let (new_list, new_table) = (&list_room[..list_bytes], &table_room[..table_bytes]);
        assert_eq!(new_list[..4], [0x11, 0, 0, new_flows.len() as u8]);
        assert_eq!(flows(new_list), new_flows);
        assert_eq!(flows(list), new_flows[..new_flows.len() - 1]);
        assert_eq!(new_table[..2], [0x12, 0]);
        assert_eq!(fields(&new_table[2..4], &[16]), [new_grants.len()]);
        assert_eq!(new_table[4..8], table[4..8]);
        assert_eq!(grants(new_table), new_grants);
        assert!(new_table[8..].chunks(5).all(|record| record[4] & 0x3F == 0));
        // Nobody has moved, and the new pair is lawful.
        let others: Vec<_> = new_grants.iter().copied().filter(|grant| grant[1] as u64 != flow[0]).collect();
        assert_eq!(others, grants(table));
        assert_eq!(law(&new_flows, fields(&table[4..6], &[16])[0], &new_grants), (0, 0));
        assert_eq!(base::check(new_list, new_table), Ok(()));
    }
    assert!(list_room[list_bytes..].iter().chain(&table_room[table_bytes..]).all(|&byte| byte == 0xA5));
    answer.err().map_or(0, |(number, _)| number)
}

#[test]
fn random_live_adds() {
    let mut random = Random::new(3);
    let mut counts = BTreeMap::new();
    for _ in 0..20_000 {
        let Case::LiveAdd { list, table, flow, rooms } = random.live_add() else {
            unreachable!("a live add");
        };
        *counts.entry(compare_live_add(&list, &table, flow, rooms)).or_insert(0) += 1;
    }
    println!("live adds by refusal {counts:?}");
    let often = [0, 3, 4, 5, 6, 7, 9, 21, 22];
    assert!(often.iter().all(|number| counts.get(number) > Some(&100)), "{counts:?}");
    assert!([1, 2].into_iter().chain(11..=18).all(|number| counts.contains_key(&number)), "{counts:?}");
}

/// Refuses the first record at fault.
fn no_record(number: u32, flows: &[Flow], wrong: impl Fn(usize) -> bool) -> Result<(), (u32, u64)> {
    (0..flows.len()).find(|&index| wrong(index)).map_or(Ok(()), |index| Err((number, index as u64 + 1)))
}

/// Test 4.
fn fields_keep_their_rules(flows: &[Flow]) -> Result<(), (u32, u64)> {
    no_record(4, flows, |index| {
        let [number, size, interval, jitter] = flows[index];
        let right = (1..=1023).contains(&number) && (1..=4095).contains(&size) && (1..=4096).contains(&interval);
        !right || size > interval || jitter > interval - 1
    })
}

/// Test 5.
fn no_number_is_used_twice(flows: &[Flow]) -> Result<(), (u32, u64)> {
    no_record(5, flows, |index| flows[..index].iter().any(|flow| flow[0] == flows[index][0]))
}

/// The smaller of two intervals divides the larger.
fn related(one: usize, other: usize) -> bool {
    one.max(other).is_multiple_of(one.min(other))
}

/// A type and its value.
type Item<'a> = (u8, &'a [u8]);

/// A run of types, lengths and values taken apart, up to a broken one; and whether none is broken.
fn items(mut run: &[u8]) -> (Vec<Item<'_>>, bool) {
    let mut items = Vec::new();
    while !run.is_empty() {
        if run.len() < 2 || run.len() < 2 + usize::from(run[1]) {
            return (items, false);
        }
        let (item, after) = run.split_at(2 + usize::from(run[1]));
        items.push((item[0], &item[2..]));
        run = after;
    }
    (items, true)
}

/// The four settings, each with its type and its length.
const FOUR: [(u8, usize); 4] = [(19, 2), (20, 4), (21, 4), (22, 1)];

/// The values of a setting in an encoding.
fn values(kind: u8, encoding: &[u8]) -> Vec<&[u8]> {
    items(encoding).0.into_iter().filter(|item| item.0 == kind).map(|item| item.1).collect()
}

/// The value of a setting that an encoding has.
fn value(kind: u8, encoding: &[u8]) -> u128 {
    values(kind, encoding)[0].iter().fold(0, |value, &byte| 256 * value + u128::from(byte))
}

/// The flows that a run asks for, for slots of so many microseconds and bytes and a room of this length.
fn ask(run: &[u8], [microseconds, bytes]: [u64; 2], room: usize) -> Result<Vec<Flow>, (u32, u64)> {
    if [microseconds, bytes].contains(&0) {
        return Err((26, 0));
    }
    let (microseconds, bytes) = (u128::from(microseconds), u128::from(bytes));
    let (encodings, whole) = items(run);
    let first = |number: u32, wrong: &dyn Fn(&Item) -> bool| {
        encodings.iter().position(wrong).map_or(Ok(()), |index| Err((number, index as u64 + 1)))
    };
    first(23, &|&(kind, encoding)| {
        let wrong = |&(kind, length): &(u8, usize)| {
            let values = values(kind, encoding);
            values.len() > 1 || values.iter().any(|value| value.len() != length)
        };
        kind != 24 || !items(encoding).1 || FOUR.iter().any(wrong)
    })?;
    if !whole {
        return Err((23, encodings.len() as u64 + 1));
    }
    first(24, &|&(_, encoding)| FOUR.iter().any(|&(kind, _)| values(kind, encoding).is_empty()))?;
    first(25, &|&(_, encoding)| !value(20, encoding).is_multiple_of(microseconds))?;

    let mut flows: Vec<Flow> = Vec::new();
    for (_, encoding) in encodings {
        // The fewest slots that hold so many bytes.
        let size = (0..).find(|slots| slots * bytes >= value(19, encoding)).expect("some are enough");
        let (interval, jitter) = (value(20, encoding) / microseconds, value(21, encoding) / microseconds);
        for _ in 0..value(22, encoding) {
            flows.push([flows.len() + 1, size as usize, interval as usize, jitter as usize]);
        }
    }
    if flows.is_empty() || flows.len() > 128 {
        return Err((3, 0));
    }
    fields_keep_their_rules(&flows)?;
    no_number_is_used_twice(&flows)?;
    no_record(6, &flows, |index| flows[..index].iter().any(|flow| !related(flow[2], flows[index][2])))?;
    if room < 4 + 6 * flows.len() {
        return Err((9, 0));
    }
    Ok(flows)
}

/// Compares one list from modem settings with the base; answers the refusal's number, 0 if there is none.
fn compare_settings(settings: &[u8], channel: [u64; 2], room: usize) -> u32 {
    let mut bytes = vec![0xA5; room];
    let answer = base::list_from_settings(settings, channel[0], channel[1], &mut bytes);
    let answer = answer.map_err(|refusal| (refusal.number, refusal.place));
    let expected = ask(settings, channel, room);
    assert_eq!(answer, expected.clone().map(|flows| 4 + 6 * flows.len()), "{settings:?} {channel:?}");
    let written = answer.unwrap_or(0);
    if let Ok(new_flows) = expected {
        assert_eq!(bytes[..4], [0x11, 0, 0, new_flows.len() as u8]);
        assert_eq!(flows(&bytes[..written]), new_flows);
    }
    assert!(bytes[written..].iter().all(|&byte| byte == 0xA5));
    answer.err().map_or(0, |(number, _)| number)
}

#[test]
fn random_settings() {
    let mut random = Random::new(5);
    let mut counts = BTreeMap::new();
    for _ in 0..20_000 {
        let Case::ListFromSettings { settings, channel, room } = random.list_from_settings() else {
            unreachable!("modem settings");
        };
        *counts.entry(compare_settings(&settings, channel, room)).or_insert(0) += 1;
    }
    println!("modem settings by refusal {counts:?}");
    assert!(counts.keys().eq(&[0, 3, 4, 6, 9, 23, 24, 25, 26]), "{counts:?}");
    assert!(counts.values().all(|&count| count > 100), "{counts:?}");
}

/// The flows of a list with their intervals rounded to a base, for a room of this length.
fn round(list: &[u8], base: u64, room: usize) -> Result<Vec<Flow>, (u32, u64)> {
    if list.len() < 4 {
        return Err((1, 0));
    }
    let head = fields(&list[..4], &[4, 4, 8, 16]);
    if head[..3] != [1, 1, 0] {
        return Err((2, 0));
    }
    if head[3] == 0 || head[3] > 128 {
        return Err((3, 0));
    }
    if list.len() != 4 + 6 * head[3] {
        return Err((1, 0));
    }
    let old = flows(list);
    fields_keep_their_rules(&old)?;
    no_number_is_used_twice(&old)?;
    if base == 0 || base > 4096 {
        return Err((27, 0));
    }
    let base = base as usize;
    no_record(28, &old, |index| old[index][2] < base)?;
    let becomes = |&[number, size, interval, jitter]: &Flow| {
        let candidates = (0..=12).map(|power| base * 2_usize.pow(power));
        let rounded = candidates.filter(|&candidate| candidate <= interval).max().expect("the base is not above it");
        [number, size, rounded, if jitter > rounded - 1 { rounded - 1 } else { jitter }]
    };
    let new: Vec<Flow> = old.iter().map(becomes).collect();
    fields_keep_their_rules(&new)?;
    if room < list.len() {
        return Err((9, 0));
    }
    Ok(new)
}

/// Compares one rounding with the base; answers the refusal's number, 0 if there is none.
fn compare_rounding(list: &[u8], base: u64, room: usize) -> u32 {
    let mut bytes = vec![0xA5; room];
    let answer = base::round_list(list, base, &mut bytes);
    let answer = answer.map_err(|refusal| (refusal.number, refusal.place));
    let expected = round(list, base, room);
    assert_eq!(answer, expected.clone().map(|_| list.len()), "{list:?} {base}");
    let written = answer.unwrap_or(0);
    if let Ok(new_flows) = expected {
        let new_list = &bytes[..written];
        assert_eq!(new_list[..4], list[..4]);
        assert_eq!(flows(new_list), new_flows);
        // All are related, planning finds so too, and rounding once more changes nothing.
        assert!(new_flows.iter().all(|one| new_flows.iter().all(|other| related(one[2], other[2]))));
        let planned = base::plan(new_list, &mut [0; base::LONGEST_TABLE]);
        assert!(planned.err().is_none_or(|refusal| [7, 8, 10].contains(&refusal.number)), "{planned:?}");
        let mut again = vec![0; written];
        assert_eq!(base::round_list(new_list, base, &mut again), Ok(written));
        assert_eq!(again, new_list);
    }
    assert!(bytes[written..].iter().all(|&byte| byte == 0xA5));
    answer.err().map_or(0, |(number, _)| number)
}

#[test]
fn random_roundings() {
    let mut random = Random::new(11);
    let mut counts = BTreeMap::new();
    // Roundings of lists that planning refuses by 6, and those that 4 refuses on the new list alone.
    let (mut unrelated, mut new_fields) = (0, 0);
    for _ in 0..20_000 {
        let Case::RoundList { list, base, room } = random.round_list() else {
            unreachable!("a rounding");
        };
        let number = compare_rounding(&list, base, room);
        *counts.entry(number).or_insert(0) += 1;
        let planned = base::plan(&list, &mut [0; base::LONGEST_TABLE]).err().map_or(0, |refusal| refusal.number);
        unrelated += usize::from(number == 0 && planned == 6);
        new_fields += usize::from(number == 4 && fields_keep_their_rules(&flows(&list)).is_ok());
    }
    println!("roundings by refusal {counts:?}, done of unrelated ones {unrelated}, 4 on the new list {new_fields}");
    assert!(counts.keys().eq(&[0, 1, 2, 3, 4, 5, 9, 27, 28]), "{counts:?}");
    assert!(counts.values().all(|&count| count > 100), "{counts:?}");
    assert!(unrelated > 1000 && new_fields > 100, "{unrelated} {new_fields}");
}

/// Every interval with every base: the interval is the base times a power of two, and twice it is above the old one.
#[test]
fn every_interval_to_every_base() {
    for base in 1..=4096 {
        for intervals in (base..=4096).collect::<Vec<_>>().chunks(128) {
            let old: Vec<_> = intervals.iter().zip(1..).map(|(&interval, number)| [number, 1, interval, 0]).collect();
            let list = samples::list(&old);
            let mut room = vec![0; list.len()];
            assert_eq!(base::round_list(&list, base.into(), &mut room), Ok(list.len()));
            for (new, &interval) in flows(&room).iter().zip(intervals) {
                let (rounded, base, interval) = (new[2], base as usize, interval as usize);
                assert!(rounded.is_multiple_of(base) && (rounded / base).is_power_of_two());
                assert!(rounded <= interval && interval < 2 * rounded);
            }
        }
    }
}

#[test]
fn random_inputs() {
    let mut random = Random::new(7);
    let (mut plans, mut without_a_frame, mut checks, mut windows) = (0, 0, 0, 0);
    for _ in 0..7_200 {
        match random.case() {
            Case::Plan { list, .. } => {
                let mut table = [0; base::LONGEST_TABLE];
                match base::plan(&list, &mut table) {
                    Ok(length) => {
                        assert_eq!(place(&flows(&list)), Ok(grants(&table[..length])));
                        assert_eq!(base::check(&list, &table[..length]), Ok(()));
                        plans += 1;
                    }
                    Err(refusal) if refusal.number == 10 => {
                        assert_eq!(place(&flows(&list)), Err(refusal.place as usize));
                        without_a_frame += 1;
                    }
                    Err(_) => (),
                }
            }
            Case::Check { list, table } => {
                let (number, place) = base::check(&list, &table).err().map_or((0, 0), |it| (it.number, it.place));
                if number == 0 || number >= 14 {
                    let flows = flows(&list);
                    let cycle = flows.iter().map(|flow| flow[2]).max().expect("a flow");
                    assert_eq!(law(&flows, cycle, &grants(&table)), (number, place));
                    checks += 1;
                }
            }
            Case::Window { table, a, b } => {
                if let Ok(stretch) = base::window(&table, a, b) {
                    let inside = |grant: &&[usize; 3]| a <= grant[0] as u64 && (grant[0] as u64) < b;
                    let before = grants(&table).iter().filter(|grant| (grant[0] as u64) < a).count();
                    let count = grants(&table).iter().filter(inside).count();
                    assert_eq!(stretch, 8 + 5 * before..8 + 5 * (before + count));
                    windows += 1;
                }
            }
            Case::SheetFromList { list, .. } => {
                let (mut sheet, mut back) = ([0; base::LONGEST_SHEET], [0; base::LONGEST_LIST]);
                if let Ok(length) = base::sheet_from_list(&list, &mut sheet) {
                    assert_eq!(base::list_from_sheet(&sheet[..length], &mut back), Ok(list.len()));
                    assert_eq!(back[..list.len()], list);
                }
            }
            Case::ListFromSheet { sheet, .. } => {
                let (mut list, mut back) = ([0; base::LONGEST_LIST], [0; base::LONGEST_SHEET]);
                if let Ok(length) = base::list_from_sheet(&sheet, &mut list) {
                    assert_eq!(base::sheet_from_list(&list[..length], &mut back), Ok(sheet.len()));
                    assert_eq!(back[..sheet.len()], sheet);
                }
            }
            Case::LiveAdd { list, table, flow, rooms } => {
                compare_live_add(&list, &table, flow, rooms);
            }
            Case::ListFromSettings { settings, channel, room } => {
                compare_settings(&settings, channel, room);
            }
            Case::RoundList { list, base, room } => {
                compare_rounding(&list, base, room);
            }
        }
    }
    assert!(
        plans > 200 && without_a_frame > 50 && checks > 200 && windows > 200,
        "{plans} {without_a_frame} {checks} {windows}"
    );
    println!("plans {plans}, without a lawful frame {without_a_frame}, checks {checks}, windows {windows}");
}
