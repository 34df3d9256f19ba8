//! Refusals with other values than 0 beside them.

use super::wrong::{module, names, ordinal, resources, segment, tables};
use crate::answer::Answer;
use reference::{Entry, Module, Name, Resource, Segment, Tables};

/// Refusal 9 as it should be is clean; with any one value set it isn't.
fn clean_only_with_zeros<R: Copy, T>(refused: R, set: &[fn(&mut R)])
where
    Answer<T>: From<R>,
{
    assert!(matches!(Answer::from(refused), Answer::Refused(9)));
    for set_one in set {
        let mut result = refused;
        set_one(&mut result);
        let answer = Answer::from(result);
        assert!(matches!(answer, Answer::Unclean { refusal: 9, .. }));
    }
}

/// Each of these fields set to 1.
macro_rules! each_set {
    ($($field:ident),+) => {
        &[$(|result| result.$field = 1),+]
    };
}

#[test]
fn a_refusal_has_zeros_beside_it() {
    clean_only_with_zeros::<_, Tables>(
        tables::refused(9),
        each_set!(
            header_at,
            unit,
            segments_at,
            segments,
            modules_at,
            modules,
            entries_at,
            entries_len,
            nonresident_at,
            nonresident_len,
            resident_at,
            imported_at,
            resources_at
        ),
    );
    clean_only_with_zeros::<_, Segment>(
        segment::refused(9),
        each_set!(start, stored, flags, allocation, records),
    );
    clean_only_with_zeros::<_, Entry>(ordinal::refused(9), each_set!(segment, offset, flag));
    clean_only_with_zeros::<_, Name>(
        names::refused(9),
        each_set!(number, text_at, text_len, ordinal),
    );
    clean_only_with_zeros::<_, Module>(module::refused(9), each_set!(text_at, text_len));
    clean_only_with_zeros::<_, Resource>(
        resources::refused(9),
        each_set!(type_, id, flags, data_at, data_len),
    );
}

#[test]
fn an_unclean_refusal_equals_no_other_answer() {
    let mut result = segment::refused(9);
    result.flags = 1;
    assert_ne!(Answer::from(result), Answer::<Segment>::Refused(9));
}
