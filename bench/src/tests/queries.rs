//! The images of the queries are walked to their ends.

use crate::queries::{all, Ask, Subject};

/// Long enough for every block, and for the nonresident names to be a part.
const LENGTH: usize = 100_000;

fn subject(name: &str) -> Subject {
    all(LENGTH)
        .find(|subject| subject.name == name)
        .expect(name)
}

#[test]
fn nothing_is_found_before_the_end() {
    let mut asked = 0;
    for subject in all(LENGTH) {
        for ask in &subject.asks {
            let answer = ask.second(&subject.image);
            match ask {
                Ask::NameByNumber(_) | Ask::ResourceByNumber(_) => assert_eq!(answer, 8),
                Ask::NameByBytes(_) => assert_eq!(answer, 17),
                Ask::ResourceByWords(..) => assert_eq!(answer, 19),
                Ask::Ordinal(_) => assert_eq!(answer, 0, "{}", subject.name),
                Ask::List => assert!(answer > 30, "{}", subject.name),
            }
            asked += 1;
        }
    }
    assert!(asked > 50, "{asked}");
}

#[test]
fn names_fill_the_image() {
    for text in [1, 2, 4, 8, 32, 255] {
        let image = subject(&format!("names of {text}")).image;
        assert_eq!(image.len(), LENGTH);
        let resident = (LENGTH - 128 - 1) / (text + 3);
        let nonresident = (65_535 - 1) / (text + 3);
        let found = |number| reference::name_by_number(&image, number as u32);
        let last = found(resident).expect("the last resident name");
        assert!(LENGTH - last.text_at as usize <= 2 * (text + 3));
        assert!(found(resident + nonresident - 1).is_ok(), "{text}");
        assert_eq!(found(resident + nonresident + 1), Err(8), "{text}");
    }
}

#[test]
fn resources_fill_the_image() {
    for count in [1, 2, 16, 1_000] {
        let image = subject(&format!("blocks of {count} resources")).image;
        assert_eq!(image.len(), LENGTH);
        let all = (LENGTH - 130 - 2) / (8 + 12 * count) * count;
        let found = |number| reference::resource_by_number(&image, number as u32);
        assert!(found(all).is_ok(), "{count}");
        assert_eq!(found(all + 1), Err(8), "{count}");
    }
}

/// The second program lists no longer image.
#[test]
fn entry_tables_can_be_listed() {
    let listed = all(LENGTH).filter(|subject| subject.asks.contains(&Ask::List));
    let lengths: Vec<usize> = listed.map(|subject| subject.image.len()).collect();
    assert!(lengths.len() > 10);
    assert!(
        lengths.iter().all(|length| *length <= 65_536),
        "{lengths:?}"
    );
}
