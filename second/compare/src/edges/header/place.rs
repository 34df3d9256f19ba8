//! Refusals 4 and 5: the NE header's place and "NE".

use super::{HeaderEdges, Judge, Minimal};

pub fn edges<Q: HeaderEdges>(judge: &mut Judge<Q>) {
    least_place(judge);
    header_ends_the_image(judge);
    great_places(judge);
    signature(judge);
}

/// The plain image with another place of the NE header.
fn placed<Q: HeaderEdges>(place: u32) -> Minimal {
    Q::plain().put_dword(0x3C, place)
}

fn least_place<Q: HeaderEdges>(judge: &mut Judge<Q>) {
    // The whole header stands at 63 and would be read well there.
    let at_63 = Minimal::with_header_at(64)
        .length(400)
        .put_dword(0x3C, 63)
        .put(63, b"NE");
    judge.refuses_asked("place 63", &at_63, 4);
    judge.accepts_in_header("place 64", &Q::in_header(64));
    judge.accepts_in_header("place 65, odd", &Q::in_header(65));
    judge.refuses_asked("place 0", &placed::<Q>(0), 4);
    judge.refuses_asked("place 2", &placed::<Q>(2), 4);
}

fn header_ends_the_image<Q: HeaderEdges>(judge: &mut Judge<Q>) {
    judge.accepts_in_header("header ends the image", &Q::in_header(64));
    judge.refuses_asked("header one past", &Q::in_header(64).length(127), 4);
    let at_1000 = Q::in_header(1000);
    judge.accepts_in_header("header at 1000 ends it", &at_1000);
    judge.refuses_asked("header at 1000 one past", &at_1000.length(1063), 4);
    judge.refuses_asked("place at the end", &placed::<Q>(144), 4);
    judge.refuses_asked("place past the end", &placed::<Q>(145), 4);
    let last = Q::in_header(16_777_216 - 64);
    judge.accepts_in_header("header ends 16,777,216 bytes", &last);
    let past = last.put_dword(0x3C, 16_777_216 - 63);
    judge.refuses_asked("header one past 16,777,216 bytes", &past, 4);
}

fn great_places<Q: HeaderEdges>(judge: &mut Judge<Q>) {
    judge.accepts_in_header("place 10040h", &Q::in_header(0x1_0040));
    let places = [0x1_0040, 0x100_0040, 0x7FFF_FFFF, 0x8000_0000, 0x8000_0040];
    let wrapping = [0xFFFF_FFBF, 0xFFFF_FFC0, 0xFFFF_FFC1, 0xFFFF_FFFF];
    for place in places.into_iter().chain(wrapping) {
        let name = format!("place {place:X}h in 144 bytes");
        judge.refuses_asked(&name, &placed::<Q>(place), 4);
    }
    for place in wrapping {
        let name = format!("place {place:X}h in 16 MB");
        judge.refuses_asked(&name, &placed::<Q>(place).length(16_777_216), 4);
    }
}

fn signature<Q: HeaderEdges>(judge: &mut Judge<Q>) {
    let with = |bytes| Q::plain().put(64, bytes);
    judge.accepts_plain("NE", &Q::plain());
    judge.refuses_asked("EN", &with(b"EN"), 5);
    judge.refuses_asked("LE", &with(b"LE"), 5);
    judge.refuses_asked("PE", &with(b"PE"), 5);
    judge.refuses_asked("first byte in lower case", &with(b"nE"), 5);
    judge.refuses_asked("first byte 0", &with(b"\0E"), 5);
    judge.refuses_asked("NF", &with(b"NF"), 5);
    judge.refuses_asked("second byte in lower case", &with(b"Ne"), 5);
    judge.refuses_asked("second byte 0", &with(b"N\0"), 5);
}
