//! The worked cases and the other examples of document 01.

use harness::base::{self, Refusal};
use harness::program::printed;
use harness::samples::{self, Flow};

fn list(flows: &[Flow]) -> Vec<u8> {
    samples::list(&samples::numbered(flows))
}

/// The grants of the plan, each as start, flow and late.
fn plan(flows: &[Flow]) -> Result<Vec<[u32; 3]>, (u32, u64)> {
    let mut room = [0xA5; base::LONGEST_TABLE];
    let answer = base::plan(&list(flows), &mut room);
    if answer.is_err() {
        assert!(room.iter().all(|&byte| byte == 0xA5), "a refusal writes nothing");
    }
    let length = answer.map_err(pair)?;
    assert!(room[length..].iter().all(|&byte| byte == 0xA5), "the rest stays");
    assert_eq!(base::check(&list(flows), &room[..length]), Ok(()));
    let table = base::Table::read(&room[..length]).map_err(pair)?;
    Ok(table.grants().map(|grant| [grant.start, grant.number, grant.late]).collect())
}

fn pair(refusal: Refusal) -> (u32, u64) {
    (refusal.number, refusal.place)
}

#[test]
fn packed_forms() {
    assert_eq!(list(&[(1, 4, 2)]), [0x11, 0, 0, 1, 0x00, 0x40, 0x04, 0x00, 0x80, 0x02]);
    let mut room = [0; 10];
    assert_eq!(base::list_from_sheet(b"flow 1 size 1 every 4 jitter 2\n", &mut room), Ok(10));
    assert_eq!(room[..], list(&[(1, 4, 2)]));
    let mut room = [0; 28];
    assert_eq!(base::plan(&list(&samples::CASE_A), &mut room), Ok(28));
    assert_eq!(room[..8], [0x12, 0, 0, 4, 0, 8, 0, 4]);
    assert_eq!(room[23..], [0x00, 0x40, 0x18, 0x00, 0x80]);
}

#[test]
fn case_a() {
    assert_eq!(plan(&samples::CASE_A), Ok(vec![[0, 1, 0], [1, 2, 0], [3, 3, 0], [6, 1, 2]]));
}

#[test]
fn case_b() {
    let flows = [(1, 4, 1), (2, 8, 0), (3, 8, 0)];
    assert_eq!(plan(&flows), Ok(vec![[0, 1, 0], [1, 2, 0], [4, 1, 0], [5, 3, 0]]));
}

#[test]
fn case_c() {
    assert_eq!(plan(&[(1, 4, 0), (4, 8, 0)]), Err((10, 2)));
    assert_eq!(plan(&[(1, 4, 1), (4, 8, 0)]), Ok(vec![[0, 1, 0], [1, 2, 0], [5, 1, 1]]));
}

#[test]
fn case_d() {
    assert_eq!(plan(&[(1, 4, 3), (6, 8, 0)]), Ok(vec![[0, 1, 0], [1, 2, 0], [7, 1, 3]]));
    assert_eq!(plan(&[(1, 4, 2), (6, 8, 0)]), Err((10, 2)));
    assert_eq!(plan(&[(1, 4, 3), (7, 8, 0)]), Err((8, 0)));
}

#[test]
fn case_e() {
    let grants = vec![[0, 1, 0], [1, 2, 0], [3, 3, 0], [6, 1, 2], [8, 1, 0], [9, 2, 0], [12, 1, 0]];
    assert_eq!(plan(&[(1, 4, 3), (2, 8, 2), (3, 16, 0)]), Ok(grants));
}

#[test]
fn case_f() {
    let flows = [(1, 11, 2), (8, 44, 0), (8, 44, 0), (6, 44, 0), (6, 44, 0), (6, 44, 0), (6, 44, 0)];
    assert_eq!(plan(&flows), Err((10, 7)));
    // A legal table, with the 8s in the second and fourth frames.
    let starts = [[0, 1, 0], [1, 4, 0], [7, 5, 0], [13, 1, 2], [14, 2, 0], [22, 1, 0], [23, 6, 0], [29, 7, 0]];
    let last = [[35, 1, 2], [36, 3, 0]];
    let table = samples::table(44, 11, &[&starts[..], &last[..]].concat());
    assert_eq!(base::check(&list(&flows), &table), Ok(()));
}

#[test]
fn case_g() {
    let check = |grants: &[[u32; 3]]| base::check(&list(&samples::CASE_A), &samples::table(8, 4, grants)).map_err(pair);
    let front = [[0, 1, 0], [1, 2, 0], [3, 3, 0]];
    let with = |last: [u32; 3]| check(&[&front[..], &[last]].concat());
    assert_eq!(with([6, 1, 2]), Ok(()));
    assert_eq!(with([6, 1, 1]), Err((16, 4)));
    assert_eq!(with([5, 1, 1]), Err((17, 4)));
    assert_eq!(with([7, 1, 3]), Err((16, 4)));
    assert_eq!(check(&front), Err((15, 1)));
}

#[test]
fn case_h() {
    assert_eq!(plan(&samples::most_grants()).map(|grants| grants.len()), Ok(1024));
    let mut flows = samples::most_grants();
    flows.push((1, 4080, 0));
    assert_eq!(plan(&flows), Err((7, 0)));
    assert_eq!(plan(&[(1, 1, 0), (1, 257, 0)]), Err((7, 0)));
    assert!(plan(&[(1, 4096, 0)]).is_ok());
    assert_eq!(plan(&[(1, 4097, 0)]), Err((4, 1)));
    assert!(plan(&[(1, 4, 3)]).is_ok());
    assert_eq!(plan(&[(1, 4, 4)]), Err((4, 1)));
    assert_eq!(plan(&[(1, 4, 0); 129]), Err((3, 0)));
    let pack = |sheet: &[u8]| base::list_from_sheet(sheet, &mut [0; base::LONGEST_LIST]).map_err(pair);
    assert_eq!(pack(b""), Err((3, 0)));
    assert_eq!(pack(b"flow 1 size 1 every 4 jiter 2\n"), Err((20, 1)));
}

#[test]
fn the_printed_plan() {
    let sheet = samples::sheet(&samples::numbered(&samples::CASE_A));
    let plan = "cycle 8 frame 4 grants 4 load 7\n\
                grant 0 flow 1 late 0\n\
                grant 1 flow 2 late 0\n\
                grant 3 flow 3 late 0\n\
                grant 6 flow 1 late 2\n";
    assert_eq!(printed(&sheet), plan);
    assert_eq!(printed(b"flow 1 size 1 every 4 jitter 0\nflow 2 size 4 every 8 jitter 0\n"), "refused 10 at 2\n");
    assert_eq!(printed(b""), "refused 3 at 0\n");
    assert_eq!(printed(&[b'\n'; 65_536]), "refused 20 at 1\n");
    assert_eq!(printed(&[b'\n'; 65_537]), "sheet too long\n");
}

#[test]
fn the_form_of_a_line() {
    let pack = |sheet: &str| base::list_from_sheet(sheet.as_bytes(), &mut [0; base::LONGEST_LIST]).map_err(pair);
    let good = "flow 1 size 1 every 4 jitter 2\n";
    assert_eq!(pack(good), Ok(10));
    assert_eq!(pack(&good.repeat(128)), Ok(4 + 6 * 128));
    assert_eq!(pack(&good.repeat(200)), Err((3, 0)));
    assert_eq!(pack(&format!("{}\n{}", good.repeat(149), good.repeat(50))), Err((20, 150)));
    for bad in [
        "flow 1 size 1 every 4 jitter 2",
        "flow 1 size 1 every 4 jitter 2\r\n",
        "flow 1 size 1 every 4 jitter 2 \n",
        "flow 01 size 1 every 4 jitter 2\n",
        "flow 1 size 1 every 4 jitter 00\n",
        "flow 1 size 10000 every 4 jitter 2\n",
        "flow 1 size  every 4 jitter 2\n",
        "flow\t1 size 1 every 4 jitter 2\n",
        " flow 1 size 1 every 4 jitter 2\n",
        "flow 1 every 4 size 1 jitter 2\n",
        "\n",
    ] {
        assert_eq!(pack(bad), Err((20, 1)), "{bad:?}");
        assert_eq!(pack(&format!("{good}{bad}")), Err((20, 2)), "{bad:?}");
    }
    assert_eq!(pack("flow 0 size 1 every 4 jitter 2\n"), Err((4, 1)));
    assert_eq!(pack("flow 1 size 9999 every 4 jitter 2\n"), Err((4, 1)));
    assert_eq!(base::list_from_sheet(good.as_bytes(), &mut [0; 9]).map_err(pair), Err((9, 0)));
}

#[test]
fn the_order_of_list_tests() {
    let plan = |list: &[u8]| base::plan(list, &mut []).map_err(pair);
    assert_eq!(plan(&[]), Err((1, 0)));
    assert_eq!(plan(&[0x11, 0, 0]), Err((1, 0)));
    assert_eq!(plan(&[0x21, 0, 0, 0]), Err((2, 0)));
    assert_eq!(plan(&[0x12, 0, 0, 0]), Err((2, 0)));
    assert_eq!(plan(&[0x11, 1, 0, 0]), Err((2, 0)));
    assert_eq!(plan(&[0x11, 0, 0, 0]), Err((3, 0)));
    assert_eq!(plan(&[0x11, 0, 0, 129]), Err((3, 0)));
    assert_eq!(plan(&[0x11, 0, 0, 1]), Err((1, 0)));
    // 4 over the whole list, then 5, then 6, then 7, then 8, then 9, then 10.
    let mut flows = [[1, 1, 4, 0], [2, 4, 8, 0], [2, 1, 12, 0], [5, 0, 4, 0]];
    assert_eq!(plan(&samples::list(&flows)), Err((4, 4)));
    flows[3] = [5, 3, 4, 0];
    assert_eq!(plan(&samples::list(&flows)), Err((5, 3)));
    flows[2][0] = 3;
    assert_eq!(plan(&samples::list(&flows)), Err((6, 3)));
    assert_eq!(plan(&list(&[(1, 1, 0), (2, 512, 0), (9, 512, 0)])), Err((7, 0)));
    flows[2][2] = 16;
    assert_eq!(plan(&samples::list(&flows)), Err((8, 0)));
    assert_eq!(plan(&list(&[(1, 4, 0), (4, 8, 0)])), Err((9, 0)));
}

#[test]
fn intervals_between_others() {
    let plan = |intervals: &[u32]| plan(&intervals.iter().map(|&interval| (1, interval, 0)).collect::<Vec<_>>());
    assert!(plan(&[4, 64, 16]).is_ok());
    assert!(plan(&[64, 4, 16, 16, 32]).is_ok());
    assert_eq!(plan(&[4, 64, 6]), Err((6, 3)));
    assert_eq!(plan(&[4, 64, 24]), Err((6, 3)));
    assert_eq!(plan(&[4, 64, 16, 24]), Err((6, 4)));
    assert_eq!(plan(&[6, 4]), Err((6, 2)));
    assert_eq!(plan(&[4096, 3]), Err((6, 2)));
}

#[test]
fn the_window() {
    let table = samples::table(8, 4, &[[0, 1, 0], [1, 2, 0], [3, 3, 0], [6, 1, 2]]);
    let window = |a, b| base::window(&table, a, b).map_err(pair);
    assert_eq!(window(0, 8), Ok(8..28));
    assert_eq!(window(1, 6), Ok(13..23));
    assert_eq!(window(1, 7), Ok(13..28));
    assert_eq!(window(2, 3), Ok(18..18));
    assert_eq!(window(0, 0), Ok(8..8));
    assert_eq!(window(7, 8), Ok(28..28));
    assert_eq!(window(3, 2), Err((19, 0)));
    assert_eq!(window(0, 9), Err((19, 0)));
    assert_eq!(window(1 << 32, 1 << 32), Err((19, 0)));
    assert_eq!(window(u64::MAX, u64::MAX), Err((19, 0)));
    let mut other = table.clone();
    other[9] = 0x48;
    assert_eq!(base::window(&other, 9, 0).map_err(pair), Err((12, 2)));
    other[27] |= 1;
    assert_eq!(base::window(&other, 9, 0).map_err(pair), Err((11, 0)));
}

#[test]
fn the_order_of_table_tests() {
    let check = |table: &[u8]| base::check(&list(&samples::CASE_A), table).map_err(pair);
    let with = |cycle, frame, grants: &[[u32; 3]]| check(&samples::table(cycle, frame, grants));
    assert_eq!(check(&[0x12, 0, 0, 4, 0, 8, 0]), Err((11, 0)));
    assert_eq!(with(8, 4, &[]), Err((11, 0)));
    assert_eq!(with(9, 4, &[[1, 9, 0], [1, 1, 0]]), Err((12, 2)));
    assert_eq!(with(9, 4, &[[1, 9, 0], [2, 1, 0]]), Err((13, 0)));
    assert_eq!(with(8, 5, &[[1, 9, 0], [2, 1, 0]]), Err((13, 0)));
    assert_eq!(with(8, 4, &[[0, 1, 3], [1, 9, 0]]), Err((14, 2)));
    assert_eq!(with(8, 4, &[[0, 1, 3], [1, 1, 0], [2, 1, 0]]), Err((15, 1)));
    assert_eq!(with(8, 4, &[[0, 1, 0], [1, 2, 0], [2, 3, 0], [4, 1, 1]]), Err((16, 4)));
    assert_eq!(with(8, 4, &[[0, 1, 1], [1, 2, 0], [3, 3, 0], [6, 1, 2]]), Err((16, 1)));
    assert_eq!(with(8, 4, &[[0, 1, 0], [1, 2, 0], [4, 1, 0], [6, 3, 0]]), Err((18, 4)));
    assert_eq!(with(8, 4, &[[0, 2, 0], [1, 1, 0], [5, 1, 0], [6, 3, 0]]), Err((17, 2)));
    // The check does not test 8.
    let oversold = list(&[(4, 4, 0), (8, 8, 0)]);
    let table = samples::table(8, 4, &[[0, 1, 0], [4, 1, 0], [7, 2, 0]]);
    assert_eq!(base::check(&oversold, &table).map_err(pair), Err((17, 3)));
}
