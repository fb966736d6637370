//! The library's C functions, with the signatures of `base`.

use crate::base::Refusal;
use core::ops::Range;

/// An operation that reads one byte string and writes one room.
type Written = unsafe extern "C" fn(*const u8, usize, *mut u8, usize, *mut u64) -> u32;

extern "C" {
    fn snowploughy_list_from_sheet(
        sheet: *const u8,
        sheet_len: usize,
        room: *mut u8,
        room_len: usize,
        value: *mut u64,
    ) -> u32;
    fn snowploughy_sheet_from_list(
        list: *const u8,
        list_len: usize,
        room: *mut u8,
        room_len: usize,
        value: *mut u64,
    ) -> u32;
    fn snowploughy_plan(list: *const u8, list_len: usize, room: *mut u8, room_len: usize, value: *mut u64) -> u32;
    fn snowploughy_check(list: *const u8, list_len: usize, table: *const u8, table_len: usize, value: *mut u64) -> u32;
    fn snowploughy_window(table: *const u8, table_len: usize, a: u64, b: u64, first: *mut u64, bytes: *mut u64) -> u32;
    fn snowploughy_live_add(
        list: *const u8,
        list_len: usize,
        table: *const u8,
        table_len: usize,
        number: u64,
        size: u64,
        interval: u64,
        jitter: u64,
        list_room: *mut u8,
        list_room_len: usize,
        table_room: *mut u8,
        table_room_len: usize,
        value: *mut u64,
    ) -> u32;
    fn snowploughy_list_from_settings(
        settings: *const u8,
        settings_len: usize,
        slot_microseconds: u64,
        slot_bytes: u64,
        room: *mut u8,
        room_len: usize,
        value: *mut u64,
    ) -> u32;
    fn snowploughy_round_list(
        list: *const u8,
        list_len: usize,
        base: u64,
        room: *mut u8,
        room_len: usize,
        value: *mut u64,
    ) -> u32;
}

pub fn list_from_sheet(sheet: &[u8], room: &mut [u8]) -> Result<usize, Refusal> {
    written(snowploughy_list_from_sheet, sheet, room)
}

pub fn sheet_from_list(list: &[u8], room: &mut [u8]) -> Result<usize, Refusal> {
    written(snowploughy_sheet_from_list, list, room)
}

pub fn plan(list: &[u8], room: &mut [u8]) -> Result<usize, Refusal> {
    written(snowploughy_plan, list, room)
}

pub fn check(list: &[u8], table: &[u8]) -> Result<(), Refusal> {
    let mut value = UNSET;
    // SAFETY: both pointers come with the length of their slice, and `value` outlives the call.
    let number = unsafe { snowploughy_check(list.as_ptr(), list.len(), table.as_ptr(), table.len(), &mut value) };
    match answer(number, value)? {
        0 => Ok(()),
        value => panic!("the check has written {value} bytes"),
    }
}

/// As in `base`, but the place is 0 for every refusal: the C function has no place to give.
pub fn window(table: &[u8], a: u64, b: u64) -> Result<Range<usize>, Refusal> {
    let (mut first, mut bytes) = (UNSET, UNSET);
    // SAFETY: the pointer comes with the length of its slice, and `first` and `bytes` outlive the call.
    let number = unsafe { snowploughy_window(table.as_ptr(), table.len(), a, b, &mut first, &mut bytes) };
    if number == 0 {
        Ok(first as usize..(first + bytes) as usize)
    } else {
        assert_eq!((first, bytes), (0, 0), "a refused window is not empty at the front");
        Err(Refusal { number, place: 0 })
    }
}

pub fn live_add(
    list: &[u8],
    table: &[u8],
    [number, size, interval, jitter]: [u64; 4],
    list_room: &mut [u8],
    table_room: &mut [u8],
) -> Result<usize, Refusal> {
    let mut value = UNSET;
    // SAFETY: all four pointers come with the length of their slice; no mutable slice overlaps another slice; `value`
    // outlives the call.
    let refused = unsafe {
        snowploughy_live_add(
            list.as_ptr(),
            list.len(),
            table.as_ptr(),
            table.len(),
            number,
            size,
            interval,
            jitter,
            list_room.as_mut_ptr(),
            list_room.len(),
            table_room.as_mut_ptr(),
            table_room.len(),
            &mut value,
        )
    };
    answer(refused, value).map(|offset| offset as usize)
}

pub fn list_from_settings(
    settings: &[u8],
    slot_microseconds: u64,
    slot_bytes: u64,
    room: &mut [u8],
) -> Result<usize, Refusal> {
    let mut value = UNSET;
    // SAFETY: both pointers come with the length of their slice; a shared and a mutable slice do not overlap; `value`
    // outlives the call.
    let number = unsafe {
        snowploughy_list_from_settings(
            settings.as_ptr(),
            settings.len(),
            slot_microseconds,
            slot_bytes,
            room.as_mut_ptr(),
            room.len(),
            &mut value,
        )
    };
    answer(number, value).map(|bytes| bytes as usize)
}

pub fn round_list(list: &[u8], base: u64, room: &mut [u8]) -> Result<usize, Refusal> {
    let mut value = UNSET;
    // SAFETY: both pointers come with the length of their slice; a shared and a mutable slice do not overlap; `value`
    // outlives the call.
    let number =
        unsafe { snowploughy_round_list(list.as_ptr(), list.len(), base, room.as_mut_ptr(), room.len(), &mut value) };
    answer(number, value).map(|bytes| bytes as usize)
}

/// What a value holds before its call, so that one left unset shows.
const UNSET: u64 = 0xA5A5_A5A5_A5A5_A5A5;

fn written(operation: Written, input: &[u8], room: &mut [u8]) -> Result<usize, Refusal> {
    let mut value = UNSET;
    // SAFETY: both pointers come with the length of their slice; a shared and a mutable slice do not overlap; `value`
    // outlives the call.
    let number = unsafe { operation(input.as_ptr(), input.len(), room.as_mut_ptr(), room.len(), &mut value) };
    answer(number, value).map(|bytes| bytes as usize)
}

/// The value of a call that is done, and otherwise its refusal.
fn answer(number: u32, value: u64) -> Result<u64, Refusal> {
    match number {
        0 => Ok(value),
        number => Err(Refusal { number, place: value }),
    }
}
