//! Refusals 1, 2 and 3: the image's length and "MZ".

use super::{HeaderEdges, Judge, Minimal};

pub fn edges<Q: HeaderEdges>(judge: &mut Judge<Q>) {
    short(judge);
    long(judge);
    signature(judge);
}

fn short<Q: HeaderEdges>(judge: &mut Judge<Q>) {
    for address in [0, 1, usize::MAX] {
        let name = format!("0 bytes at address {address:X}h");
        judge.refuses_nothing_at(&name, address, &Q::asked(), 1);
    }
    let cut = |length| Q::plain().length(length);
    judge.refuses_asked("0 bytes", &cut(0), 1);
    judge.refuses_asked("1 byte", &cut(1), 1);
    judge.refuses_asked("63 bytes", &cut(63), 1);
    // 64 bytes aren't too few; the NE header is missing.
    judge.refuses_asked("64 bytes", &cut(64), 4);
}

fn long<Q: HeaderEdges>(judge: &mut Judge<Q>) {
    let long = |length| Q::plain().length(length);
    judge.accepts_plain("16,777,215 bytes", &long(16_777_215));
    judge.accepts_plain("16,777,216 bytes", &long(16_777_216));
    judge.refuses_asked("16,777,217 bytes", &long(16_777_217), 2);
    judge.refuses_asked("33,554,432 bytes", &long(33_554_432), 2);
}

fn signature<Q: HeaderEdges>(judge: &mut Judge<Q>) {
    let with = |bytes| Q::plain().put(0, bytes);
    judge.accepts_plain("MZ", &Q::plain());
    judge.refuses_asked("ZM", &with(b"ZM"), 3);
    judge.refuses_asked("first byte above", &with(b"NZ"), 3);
    judge.refuses_asked("first byte in lower case", &with(b"mZ"), 3);
    judge.refuses_asked("first byte 0", &with(b"\0Z"), 3);
    judge.refuses_asked("second byte above", &with(b"M["), 3);
    judge.refuses_asked("second byte in lower case", &with(b"Mz"), 3);
    judge.refuses_asked("second byte 0", &with(b"M\0"), 3);
    let zeros = Minimal::new().length(64).put(0, b"\0\0");
    judge.refuses_asked("64 bytes without MZ", &zeros, 3);
}
