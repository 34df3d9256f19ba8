//! The table of refusals.

use parchgable::{Refusal, Refused, UnknownRefusal};
use std::collections::BTreeSet;
use std::error::Error;

#[test]
fn numbers_are_1_to_26_in_order() {
    let numbers = Refusal::ALL.map(Refusal::number);
    assert!(numbers.into_iter().eq(1..=26));
    for refusal in Refusal::ALL {
        assert_eq!(Refusal::try_from(refusal.number()), Ok(refusal));
    }
}

#[test]
fn other_numbers_are_no_refusals() {
    for number in [0, 27, u32::MAX] {
        assert_eq!(Refusal::try_from(number), Err(UnknownRefusal(number)));
    }
    let message = UnknownRefusal(27).to_string();
    assert_eq!(message, "there is no refusal 27; they are 1 to 26");
}

#[test]
fn every_refusal_has_texts_of_its_own() {
    let different = |text: fn(Refusal) -> &'static str| {
        let texts: BTreeSet<_> = Refusal::ALL.map(text).into();
        texts.len()
    };
    assert_eq!(different(Refusal::text), 26);
    assert_eq!(different(Refusal::meaning), 26);
    for refusal in Refusal::ALL {
        let sentences = [refusal.meaning(), refusal.advice()];
        assert!(sentences.iter().all(|text| text.ends_with('.')));
        // It follows a colon, on a line of a report.
        assert!(refusal.text().len() <= 60 && !refusal.text().ends_with('.'));
    }
}

#[test]
fn refusals_are_written_and_are_errors() {
    let refusal = Refusal::SpanOutside;
    let expected = "refused 24: span outside the stored bytes";
    assert_eq!(refusal.to_string(), expected);
    let without = Refused {
        refusal,
        record: None,
    };
    assert_eq!(without.to_string(), expected);
    let at_a_record: Box<dyn Error> = Box::new(Refused {
        refusal,
        record: Some(2),
    });
    let expected = "refused 24 at record 2: span outside the stored bytes";
    assert_eq!(at_a_record.to_string(), expected);
}
