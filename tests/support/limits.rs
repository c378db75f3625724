//! Set-ups at and past the limits of a row, refusals 9 to 15 (01, 'Refusal numbers') and 18 (#101).

use crate::random::Random;
use crate::setup::Setup;

/// A row of exactly 640 dots, or the next wider one.
pub fn widen(setup: &mut Setup, random: &mut Random) {
    // [FX] and [C/R]; 641 dots cannot be had, as 641 is prime.
    let (fx, columns) = match setup.grey {
        0 => random.pick(&[(8, 80), (8, 80), (5, 128), (4, 160), (8, 81), (7, 92), (6, 107), (5, 129), (3, 214)]),
        1 => random.pick(&[(8, 160), (8, 161)]),
        _ => (8, 240),
    };
    setup.fx = fx - 1;
    setup.crx = setup.crx.min(setup.fx);
    setup.hdot = setup.hdot.min(setup.fx);
    // A scrolled row needs one more.
    setup.cr = (columns - 1) as u8 + u8::from(setup.hdot != 0);
    setup.tcr = setup.cr + 4;
    setup.lf = if setup.ws { 1 } else { random.below(3) as u8 };
}

/// Columns so many that C/R + 4 is near 255 or above it.
pub fn crowd(setup: &mut Setup, random: &mut Random) {
    setup.cr = random.pick(&[250, 251, 251, 252, 253, 255]);
    setup.tcr = random.pick(&[0, 1, 3, 200, 254, 255, 255]);
    setup.lf = 1;
    if setup.grey == 0 {
        setup.fx = random.below(2) as u8;
        setup.crx = 0;
        setup.hdot = setup.hdot.min(setup.fx);
    }
}

/// 255 or 256 narrow rows, with the split near the last of them.
pub fn heighten(setup: &mut Setup, random: &mut Random) {
    setup.cr = setup.cr.min(1);
    setup.lf = if setup.ws { 255 } else { random.pick(&[254, 255]) };
    setup.sl1 = random.pick(&[126, 127, 253, 254, 255]);
    setup.sl2 = random.pick(&[setup.sl1, 255]);
}

/// Breaks some of the limits, often more than one.
pub fn exceed(setup: &mut Setup, random: &mut Random) {
    if random.chance(25) {
        setup.grey = random.between(1, 2) as u8;
        setup.fx = random.pick(&[7, 7, 6, 8, 15]);
        setup.hdot = 0;
    }
    if random.chance(20) {
        setup.dm1 = !setup.dm1;
    }
    if random.chance(25) {
        setup.fx = random.pick(&[8, 8, 9, 15]);
    }
    if random.chance(20) {
        setup.cr = random.pick(&[79, 80, 81, 200, 251, 255]);
        setup.tcr = setup.cr.saturating_add(4);
        setup.lf = setup.lf.min(3);
    }
    if random.chance(20) {
        setup.lf &= !1;
        setup.ws = true;
    }
    if random.chance(35) {
        setup.tcr = random.pick(&[setup.cr.saturating_add(3), setup.cr.saturating_add(3), setup.cr, 0]);
    }
    if random.chance(25) {
        setup.ws = false;
        setup.sl1 = random.between(1, 30) as u8;
        setup.sl2 = setup.sl1 - 1;
        setup.dm2 &= random.chance(50);
    }
    if random.chance(35) {
        setup.crx = (setup.fx + random.between(0, 2) as u8).min(15);
    }
    if random.chance(35) {
        let any = random.between(1, 7) as u8;
        setup.hdot = random.pick(&[any, setup.fx + 1, setup.fx + 1]).min(7);
        if random.chance(30) {
            setup.cr = 0;
        }
    }
}
