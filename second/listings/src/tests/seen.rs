//! The kinds of listing that must be seen.

use crate::images::{Way, WAYS};
use crate::seen::{Kind, Seen, KINDS};

#[test]
fn kinds_of_listings() {
    for (text, kind) in [
        ("too long\n", Some(Kind::TooLong)),
        ("refused 12\n", Some(Kind::Refused(12))),
        ("ordinals 0\nend\n", Some(Kind::Empty)),
        ("ordinals 3\nend\n", Some(Kind::NullAlone)),
        ("ordinals 1\n1 1:0000 00\nend\n", Some(Kind::EntriesAlone)),
        ("ordinals 2\n2 1:0000 00\nend\n", Some(Kind::EntriesAndNull)),
        ("", None),
        ("end\n", None),
        ("refused x\n", None),
    ] {
        assert_eq!(Kind::of(text.as_bytes()), kind, "{text}");
    }
}

/// All kinds in all ways but for one.
fn without(missing: Option<(Kind, Way)>) -> Seen {
    let mut seen = Seen::default();
    for kind in KINDS {
        for way in WAYS {
            if missing != Some((kind, way)) {
                seen.note(kind, way);
            }
        }
    }
    seen
}

#[test]
fn a_kind_never_seen_fails() {
    assert_eq!(without(None).check().failed(), 0);
    for kind in KINDS {
        for way in WAYS {
            assert_eq!(without(Some((kind, way))).check().failed(), 1);
        }
    }
}

/// Refusal 2 can't be seen, since such an image is too long.
#[test]
fn another_kind_fails() {
    let mut seen = without(None);
    seen.note(Kind::Refused(2), Way::File);
    assert_eq!(seen.check().failed(), 1);
}
