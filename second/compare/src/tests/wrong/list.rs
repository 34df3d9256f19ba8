//! Listings that are wrong in one respect.

use crate::answer::Answer;
use crate::calls::list::Listed;
use crate::calls::{Function, List, Listing, Query};

/// The right one, for the others to spoil.
pub fn right(image: &[u8], request: &Listing) -> Answer<Listed> {
    List::reference(image, request).into()
}

/// Right too, and the one that texts are spoiled in.
pub fn written(image: &[u8], request: &Listing) -> Answer<Listed> {
    request.says(&text(image))
}

/// The last letter is another one in a rare listing.
pub fn rare_letter(image: &[u8], request: &Listing) -> Answer<Listed> {
    let text = text(image);
    let rare = text.starts_with("ordinals 17\n") && request.room.items().len() > 30;
    match rare {
        true => request.says(&text.replace("end\n", "enD\n")),
        false => request.says(&text),
    }
}

/// The right text.
fn text(image: &[u8]) -> String {
    let mut room = vec![0; reference::list(image, &mut [])];
    reference::list(image, &mut room);
    String::from_utf8(room).expect("letters, digits and signs")
}

/// The listing with each line of an entry changed.
fn with_lines(image: &[u8], change: impl Fn(&str) -> String) -> String {
    let text = text(image);
    let change = |line: &str| match line.contains(':') {
        true => change(line) + "\n",
        false => line.to_string() + "\n",
    };
    text.lines().map(change).collect()
}

/// The numbers of a line.
fn numbers(line: &str) -> [u32; 4] {
    let parts: Vec<&str> = line.split([' ', ':']).collect();
    let decimal = |at: usize| parts[at].parse().expect("a number");
    let hex = |at: usize| u32::from_str_radix(parts[at], 16).expect("a hex number");
    [decimal(0), decimal(1), hex(2), hex(3)]
}

/// The right answer, with this done to what was given and left.
fn left(
    image: &[u8],
    request: &Listing,
    spoil: impl Fn(&mut usize, &mut Vec<u8>),
) -> Answer<Listed> {
    request.answered(|room| {
        let mut all = room.to_vec();
        let mut length = reference::list(image, &mut all);
        spoil(&mut length, &mut all);
        room.copy_from_slice(&all);
        length
    })
}

type Answered = fn(&[u8], &Listing) -> Answer<Listed>;

/// What is said is wrong.
pub const WRONG_TEXT: [(&str, Answered); 11] = [
    ("too long", |image, request| match image.len() > 65_536 {
        true => request.says("too long\n"),
        false => right(image, request),
    }),
    ("refused without a number", |image, request| {
        let text = text(image);
        match text.starts_with("refused") {
            true => request.says("refused\n"),
            false => request.says(&text),
        }
    }),
    ("no end line", |image, request| {
        request.says(text(image).trim_end_matches("end\n"))
    }),
    ("no last newline", |image, request| {
        request.says(text(image).trim_end())
    }),
    ("null not counted", |image, request| {
        let text = text(image);
        let used = text.matches(':').count();
        match text.split_once('\n') {
            Some((first, rest)) if first.starts_with("ordinals") => {
                request.says(&format!("ordinals {used}\n{rest}"))
            }
            _ => request.says(&text),
        }
    }),
    ("lower case", |image, request| {
        request.says(&with_lines(image, str::to_lowercase))
    }),
    ("segment in hex", |image, request| {
        request.says(&with_lines(image, |line| {
            let [ordinal, segment, offset, flag] = numbers(line);
            format!("{ordinal} {segment:X}:{offset:04X} {flag:02X}")
        }))
    }),
    ("offset without zeros", |image, request| {
        request.says(&with_lines(image, |line| {
            let [ordinal, segment, offset, flag] = numbers(line);
            format!("{ordinal} {segment}:{offset:X} {flag:02X}")
        }))
    }),
    ("flag without zeros", |image, request| {
        request.says(&with_lines(image, |line| {
            let [ordinal, segment, offset, flag] = numbers(line);
            format!("{ordinal} {segment}:{offset:04X} {flag:X}")
        }))
    }),
    ("ordinals of four digits", |image, request| {
        request.says(&with_lines(image, |line| {
            let [ordinal, segment, offset, flag] = numbers(line);
            format!("{} {segment}:{offset:04X} {flag:02X}", ordinal % 10_000)
        }))
    }),
    ("nothing", |_, request| request.says("")),
];

/// What is given or left is wrong.
pub const WRONG_ROOM: [(&str, Answered); 8] = [
    ("length of what fits", |image, request| {
        left(image, request, |length, room| {
            *length = (*length).min(room.len())
        })
    }),
    ("length and one", |image, request| {
        left(image, request, |length, _| *length += 1)
    }),
    ("length in 16 bits", |image, request| {
        left(image, request, |length, _| *length &= 0xFFFF)
    }),
    ("a zero behind", |image, request| {
        left(image, request, |length, room| {
            if let Some(behind) = room.get_mut(*length) {
                *behind = 0;
            }
        })
    }),
    ("zeros to the end", |image, request| {
        left(image, request, |length, room| {
            let fits = (*length).min(room.len());
            room[fits..].fill(0);
        })
    }),
    ("nothing if it does not fit", |image, request| {
        left(image, request, |length, room| {
            if *length > room.len() {
                room.copy_from_slice(request.room.items());
            }
        })
    }),
    ("whole lines only", |image, request| {
        left(image, request, |length, room| {
            if *length > room.len() {
                let newline = room.iter().rposition(|byte| *byte == b'\n');
                let from = newline.map_or(0, |at| at + 1);
                room[from..].copy_from_slice(&request.room.items()[from..]);
            }
        })
    }),
    ("the last byte kept", |image, request| {
        left(image, request, |length, room| {
            if *length >= room.len() && !room.is_empty() {
                let last = room.len() - 1;
                room[last] = request.room.items()[last];
            }
        })
    }),
];

pub fn call(answer: Answered) -> Function<List> {
    Function { answer }
}
