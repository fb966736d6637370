//! Modem settings, request L2 of document 02: calls asked for in bytes and microseconds become a list.
//!
//! Settings are types, lengths and values, a byte each for type and length. At the top stand upstream service flow
//! encodings, and in each of them the settings of one or several flows.

use super::*;

/// The type of an upstream service flow encoding.
const UPSTREAM_SERVICE_FLOW: u8 = 24;
// The types of the four settings in it that ask for flows: in bytes, in microseconds twice, and a count.
const GRANT_SIZE: u8 = 19;
const GRANT_INTERVAL: u8 = 20;
const GRANT_JITTER: u8 = 21;
const GRANTS_PER_INTERVAL: u8 = 22;

/// Packs what a run of upstream service flow encodings asks for as a list at the room's front, for slots of so many
/// microseconds that hold so many bytes; answers its length in bytes. Tests 26, 23, 24, 25, 3 to 6, 9.
pub fn list_from_settings(
    settings: &[u8],
    slot_microseconds: u64,
    slot_bytes: u64,
    room: &mut [u8],
) -> Result<usize, Refusal> {
    if slot_microseconds == 0 || slot_bytes == 0 {
        return refused(26, 0);
    }
    let mut flows = [Flow::NONE; FLOWS];
    let flows = read_settings(settings, slot_microseconds, slot_bytes, &mut flows)?;
    test_fields(flows)?;
    // No number is used twice: each flow has that of its record. So 5 finds no fault.
    Groups::of(flows)?;
    pack_list(flows, room)
}

/// The flows that a run of encodings asks for, numbered from 1 as they come. Tests 23, 24, 25 and 3.
fn read_settings<'a>(
    settings: &[u8],
    slot_microseconds: u64,
    slot_bytes: u64,
    room: &'a mut [Flow; FLOWS],
) -> Result<&'a [Flow], Refusal> {
    // The first encoding at fault by 24 and by 25, which wait until all are read.
    let (mut missing, mut not_whole) = (None, None);
    let (mut rest, mut place, mut count) = (settings, 0, 0);
    while !rest.is_empty() {
        place += 1;
        let Some((UPSTREAM_SERVICE_FLOW, encoding, after)) = split_setting(rest) else {
            return refused(23, place);
        };
        let Some(asked) = Asked::read(encoding) else {
            return refused(23, place);
        };
        rest = after;
        let Some((size, interval, jitter, grants)) = asked.all() else {
            missing = missing.or(Some(place));
            continue;
        };
        if interval % slot_microseconds != 0 {
            not_whole = not_whole.or(Some(place));
        }
        // In slots no number is greater than it was, so each keeps within the bits it came in.
        let flow = Flow {
            number: 0,
            size: size.div_ceil(slot_bytes) as u32,
            interval: (interval / slot_microseconds) as u32,
            jitter: (jitter / slot_microseconds) as u32,
        };
        for _ in 0..grants {
            count += 1;
            if let Some(entry) = room.get_mut(count - 1) {
                *entry = Flow { number: count as u32, ..flow };
            }
        }
    }
    if let Some(place) = missing {
        return refused(24, place);
    }
    if let Some(place) = not_whole {
        return refused(25, place);
    }
    if count == 0 || count > FLOWS {
        return refused(3, 0);
    }
    Ok(&room[..count])
}

/// The type and the value in front, and what follows them. None if they are not all there.
#[inline(always)]
fn split_setting(settings: &[u8]) -> Option<(u8, &[u8], &[u8])> {
    let (&[kind, length], rest) = settings.split_first_chunk()?;
    let (value, after) = rest.split_at_checked(length.into())?;
    Some((kind, value, after))
}

/// What an encoding says of the flows it asks for.
#[derive(Default)]
struct Asked {
    size: Option<[u8; 2]>,
    interval: Option<[u8; 4]>,
    jitter: Option<[u8; 4]>,
    grants: Option<[u8; 1]>,
}

impl Asked {
    /// What these settings say. None if one is not all there, or one of the four is repeated or of wrong length.
    #[inline(always)]
    fn read(mut settings: &[u8]) -> Option<Asked> {
        let mut asked = Asked::default();
        while !settings.is_empty() {
            let (kind, value, after) = split_setting(settings)?;
            match kind {
                GRANT_SIZE => take_once(&mut asked.size, value)?,
                GRANT_INTERVAL => take_once(&mut asked.interval, value)?,
                GRANT_JITTER => take_once(&mut asked.jitter, value)?,
                GRANTS_PER_INTERVAL => take_once(&mut asked.grants, value)?,
                _ => (),
            }
            settings = after;
        }
        Some(asked)
    }

    /// The size in bytes, the interval and the jitter in microseconds and the grants per interval, if all are given.
    #[inline(always)]
    fn all(&self) -> Option<(u64, u64, u64, u8)> {
        let size = u16::from_be_bytes(self.size?);
        let interval = u32::from_be_bytes(self.interval?);
        let jitter = u32::from_be_bytes(self.jitter?);
        let [grants] = self.grants?;
        Some((size.into(), interval.into(), jitter.into(), grants))
    }
}

/// Takes the value of a setting. None if the setting has one already, or if the value is of wrong length.
#[inline(always)]
fn take_once<const LENGTH: usize>(setting: &mut Option<[u8; LENGTH]>, value: &[u8]) -> Option<()> {
    let value = value.try_into().ok()?;
    setting.replace(value).is_none().then_some(())
}
