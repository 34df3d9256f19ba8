//! Lengths of the whole image, the headers' places and the alignment shift.

use super::{case, one_segment, shorter, with_bytes, Special};
use crate::assemble::LONGEST_IMAGE;
use crate::description::{Description, Part, Put};
use crate::generate::Case;
use crate::layout::FieldKind;

pub(super) fn headers() -> Vec<Special> {
    let mut all = lengths();
    all.extend(places());
    for shift in [0u16, 15, 16, 0x8000, 0xFFFF] {
        let name = format!("alignment shift {shift} without segments");
        all.push(Special::of(name, move || {
            let mut description = smallest();
            description.shift = shift;
            description
        }));
    }
    all
}

/// 128 bytes: two headers. The resident list's end byte is the NE header's last.
fn smallest() -> Description {
    let mut description = Description::empty();
    let over = Put::Over {
        part: Part::Header,
        offset: 0x3F,
    };
    description.order = vec![
        (Part::Header, Put::After { gap: 0 }),
        (Part::ResidentNames, over),
    ];
    description
}

fn lengths() -> Vec<Special> {
    let mut all = vec![Special::of("128 bytes, the smallest", smallest)];
    for length in [0usize, 1, 2, 63, 64, 65, 127] {
        let name = format!("the smallest cut to {length} bytes");
        all.push(Special::new(name, move || {
            shorter(case(smallest()), 128 - length)
        }));
    }
    all.extend([
        Special::new("16,777,216 bytes", || longest(0)),
        Special::new("16,777,217 bytes", || longest(1)),
        Special::new("16,777,215 bytes", || {
            with_bytes(longest(0), |bytes| bytes.truncate(LONGEST_IMAGE - 1))
        }),
        Special::new("signature ZM", || {
            with_bytes(case(smallest()), |bytes| bytes.swap(0, 1))
        }),
    ]);
    all
}

fn longest(more: usize) -> Case {
    with_bytes(case(smallest()), |bytes| {
        bytes.resize(LONGEST_IMAGE + more, 0);
    })
}

fn places() -> Vec<Special> {
    let mut all = Vec::new();
    for gap in [1u32, 13, 64, 65_535, 65_536, 100_001] {
        let name = format!("NE header {gap} bytes further");
        all.push(Special::of(name, move || {
            let mut description = one_segment(vec![0xFF; 20], Vec::new());
            description.order[0].1 = Put::After { gap };
            description
        }));
    }
    for place in [0u32, 1, 63, 65, 0x8000_0000, 0xFFFF_FFC0, u32::MAX] {
        for length in [128, 400] {
            let name = format!("NE header's place {place:X}h in {length} bytes");
            all.push(Special::new(name, move || {
                let grown = with_bytes(case(smallest()), |bytes| bytes.resize(length, 0));
                with_place(grown, place)
            }));
        }
    }
    all
}

fn with_place(case: Case, place: u32) -> Case {
    let field = case.image.layout.field_of(FieldKind::HeaderPlace);
    with_bytes(case, |bytes| {
        if let Some(field) = field {
            field.write(bytes, place);
        }
    })
}
