//! Refusal 8: the segment's number.

use super::super::fixups::{additive, module, OFFSET};
use super::{asked, prepared, refused, Judge, GREAT};
use crate::answer::Answer;
use crate::calls::Preparing;

pub fn edges(judge: &mut Judge) {
    inside(judge);
    outside(judge);
}

/// The second segment has no stored bytes and an allocation of 1.
fn inside(judge: &mut Judge) {
    let module = module(&[5, 0], &[additive(OFFSET, 0)]);
    judge.prepares("1 of 2", &module, &[0x39, 0x12], &[1, 1], 1);
    let second = Preparing {
        number: 2,
        ..asked(&module)
    };
    let expected = Answer::Accepted(prepared(&second, &[0], &[], 0));
    judge.expects("2 of 2", &module.image(), &second, &expected);
}

/// Some of the low words and low bytes are 1 or 2.
fn outside(judge: &mut Judge) {
    let module = module(&[5, 0], &[additive(OFFSET, 0)]);
    let powers = (2..32).flat_map(|bit| (1u32 << bit)..=(1 << bit) + 2);
    for number in [0, 3].into_iter().chain(powers).chain(GREAT) {
        let request = Preparing {
            number,
            ..asked(&module)
        };
        let name = format!("{number} of 2");
        judge.expects(&name, &module.image(), &request, &refused(8, 0));
    }
}
