//! Rounding, request L3 of document 02: intervals that need not divide one another become related.
//!
//! Every new interval is the base times a power of two, so of any two the smaller divides the larger.

use super::*;

/// The greatest base: that of an interval.
const GREATEST_BASE: u64 = 4096;

/// Packs a list with its intervals rounded down to the base times a power of two, and its jitters capped below them, at
/// the room's front; answers its length in bytes. Tests the old list by 1 to 5, then 27, 28, the new list by 4, then 9.
pub fn round_list(list: &[u8], base: u64, room: &mut [u8]) -> Result<usize, Refusal> {
    let mut flows = [Flow::NONE; FLOWS];
    let flows = read_list(list, &mut flows)?;
    Numbers::of(flows)?;
    if base == 0 || base > GREATEST_BASE {
        return refused(27, 0);
    }
    let base = base as u32;
    let mut rounded = [Flow::NONE; FLOWS];
    let rounded = round_flows(flows, base, &mut rounded)?;
    // Of a new flow's rules only that of its size against its interval can be broken.
    test_fields(rounded)?;
    pack_list(rounded, room)
}

/// The flows rounded to a base that is not 0. Test 28.
fn round_flows<'a>(flows: &[Flow], base: u32, room: &'a mut [Flow; FLOWS]) -> Result<&'a [Flow], Refusal> {
    let rounded = &mut room[..flows.len()];
    for (index, (flow, entry)) in flows.iter().zip(&mut *rounded).enumerate() {
        if flow.interval < base {
            return refused(28, index + 1);
        }
        let interval = round_interval(flow.interval, base);
        *entry = Flow { interval, jitter: flow.jitter.min(interval - 1), ..*flow };
    }
    Ok(rounded)
}

/// The largest base times a power of two that is not above the interval, which is not below the base.
#[inline(always)]
fn round_interval(interval: u32, base: u32) -> u32 {
    let mut rounded = base;
    while 2 * rounded <= interval {
        rounded *= 2;
    }
    rounded
}
