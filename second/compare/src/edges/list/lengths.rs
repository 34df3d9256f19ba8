//! Images and listings that are too long for the listing program.

use super::examples::{OF_P10, P10};
use super::{ended, module, nulls, Judge, Listing};

pub fn edges(judge: &mut Judge) {
    images(judge);
    most_entries(judge);
}

fn images(judge: &mut Judge) {
    let long = |length| module(2, &P10).length(length);
    for length in [65_535, 65_536, 65_537, 131_072, 16_777_215, 16_777_216] {
        judge.lists(&format!("P10 in {length}"), &long(length), OF_P10);
    }
    judge.lists("P10 in 16,777,217", &long(16_777_217), "refused 2\n");
    let short = module(2, &P10[..15]).length(65_537);
    judge.lists("P11 in 65,537", &short, "refused 12\n");
}

/// As many entries as a table of 65,535 bytes has room for behind 9,999 null
/// ordinals, so that each has five digits; and segments of three.
fn most_entries(judge: &mut Judge) {
    let bundle = [&[255, 250], &[0xEF, 0xCD, 0xAB].repeat(255)[..]].concat();
    let table = ended(&[&nulls(9_999), &bundle.repeat(85)]);
    let lines = (10_000..10_000 + 85 * 255).map(|ordinal| format!("{ordinal} 250:ABCD EF\n"));
    let lines: String = lines.collect();
    let text = format!("ordinals 31674\n{lines}end\n");
    let image = module(250, &table);
    judge.lists("21,675 entries", &image, &text);
    for length in [0, 20, 65_535, 65_536, 65_537] {
        let request = Listing::in_room(length);
        let name = format!("21,675 entries in {length} bytes");
        judge.expects(&name, &image, &request, &request.says(&text));
    }
}
