//! Damage to a bus file: bad records, cut records, bytes left over (01, 'Bus file and its program').

use crate::disturb;
use support::random::Random;
use support::records::Records;
use reference::commands::{CSRR, MWRITE};

/// Damages the file, and perhaps adds good records, which must then have no effect.
pub fn damage(records: &mut Records, random: &mut Random) {
    match random.below(10) {
        0 => {
            let left = random.below(records.bytes.len() as u32 + 1);
            records.bytes.truncate(left as usize);
            return;
        }
        1 => {
            let left = random.between(1, 3);
            records.bytes.extend(random.bytes(left));
            return;
        }
        2 => {
            let place = random.below(records.bytes.len() as u32) as usize;
            records.bytes[place] ^= 1 << random.below(8);
        }
        3 => records.raw(2, random.pick(&[0, 4, 5, 0x0100, 0x0101, 0x0201, 0x0302, 0xFFFF]), &[1, 0]),
        4 => {
            let length = random.pick(&[0, 1, 3, 4, 258]);
            records.raw(length, 2, &vec![0; usize::from(length)]);
        }
        5 => {
            let length = random.pick(&[0, 1, 2, 3, 5, 8, 260]);
            records.raw(length, 3, &vec![0; usize::from(length)]);
        }
        6 => records.raw(0, 1, &[]),
        7 => {
            let length = random.pick(&[65_533, 65_533, 65_533, 65_534, 65_535]);
            let payload = if random.chance(50) { usize::from(length) } else { 8 };
            records.raw(length, random.pick(&[1, 1, 2, 3]), &vec![MWRITE; payload]);
        }
        8 => {
            let kind = random.between(1, 3) as u16;
            let length = [5, 2, 4][usize::from(kind) - 1];
            let left = random.below(u32::from(length));
            records.raw(length, kind, &random.bytes(left));
            return;
        }
        _ => {
            // The longest payload that is taken.
            let mut payload = random.bytes(65_532);
            payload[0] = random.pick(&[MWRITE, MWRITE, CSRR]);
            records.raw(65_532, 1, &payload);
        }
    }
    if random.chance(60) {
        disturb::show(records, random);
        records.command(0x41, &[]);
    }
}
