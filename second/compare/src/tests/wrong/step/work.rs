//! A step with a fault to choose.

use crate::stated;
use crate::tests::wrong::fixups::{word, Fault, Fixup, Target};
use crate::tests::wrong::sound_header;

pub fn faulty(
    fault: Fault,
    image: &[u8],
    record: &[u8; 8],
    answer: u32,
    selectors: &[u16],
    buffer: &mut [u8],
) {
    let fixup = Fixup::of(record, fault);
    let few = selectors.len() < stated::segment_count(image) as usize;
    let nothing = sound_header(image).is_err()
        || !fixup.is_known()
        || (fault == Fault::SelectorsByTheTable && few);
    let target = match nothing {
        true => None,
        false => fixup.target(image, answer, selectors),
    };
    if let Some(target) = target {
        let mut done = buffer.to_vec();
        if sites(&fixup, target, &mut done) {
            buffer.copy_from_slice(&done);
        }
    }
}

/// Whether what is written counts.
fn sites(fixup: &Fixup, target: Target, buffer: &mut [u8]) -> bool {
    let fault = fixup.fault;
    let chained = !fixup.additive || fault == Fault::AdditiveIsChained;
    let mut site = fixup.site;
    if fault == Fault::EndIsEmptyChain && chained && site == 0xFFFF {
        return true;
    }
    let mut met = vec![false; buffer.len() + 4];
    for _ in 0..limit(fault, buffer.len()) {
        let end = site + fixup.span();
        if end > buffer.len() {
            if fault == Fault::PartOfASpan && site < buffer.len() {
                fixup.write(buffer, site, target);
            }
            return fault != Fault::NothingIfOutside;
        }
        if fault == Fault::StopsWhereSpansMeet && met[site..end].contains(&true) {
            return true;
        }
        met[site..end].fill(true);
        let before = word(buffer, site);
        fixup.write(buffer, site, target);
        let next = match fault {
            Fault::NextReadAfterWriting => word(buffer, site),
            _ => before,
        };
        if !chained || fault == Fault::FirstSiteOnly || next == 0xFFFF {
            return true;
        }
        site = usize::from(next);
    }
    true
}

/// The greatest number of sites.
fn limit(fault: Fault, length: usize) -> usize {
    match fault {
        Fault::OneSiteEarly => length.saturating_sub(1),
        Fault::OneSiteMore => length + 1,
        _ => length,
    }
}
