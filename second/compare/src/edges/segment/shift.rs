//! Start = sector times 2^shift; shift 0 is times 1.

use super::{module, plain, Judge, PLAIN};

pub fn edges(judge: &mut Judge) {
    judge.accepts("shift 0 is times 1", &plain().ne_word(0x32, 0), 1, PLAIN);
    let at = |sector, shift, length| {
        let image = module(&[[sector, 8, 0, 8]]).ne_word(0x32, shift);
        image.length(length)
    };
    judge.accepts("shift 1", &at(68, 1, 144), 1, PLAIN);
    judge.accepts("shift 3", &at(17, 3, 144), 1, PLAIN);
    judge.accepts("shift 4", &at(9, 4, 152), 1, [144, 8, 0, 8, 0]);
    judge.refuses("shift 4, one byte short", &at(9, 4, 151), 1, 9);
    judge.accepts("shift 9", &at(1, 9, 520), 1, [512, 8, 0, 8, 0]);
    judge.accepts("shift 9, sector 3", &at(3, 9, 1544), 1, [1536, 8, 0, 8, 0]);
    judge.accepts(
        "shift 15, sector 1",
        &at(1, 15, 32_776),
        1,
        [32_768, 8, 0, 8, 0],
    );
    judge.refuses("shift 15, sector 1, short", &at(1, 15, 32_775), 1, 9);
    judge.accepts(
        "shift 15, sector 2",
        &at(2, 15, 65_544),
        1,
        [65_536, 8, 0, 8, 0],
    );
}
