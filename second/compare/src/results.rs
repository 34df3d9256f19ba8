//! The results of the exported functions, beside the reference's values that
//! they stand for.

use crate::answer::Answer;
use reference::{Entry, Module, Name, Resource, Segment, Tables};
use std::fmt::Debug;

/// Values that can be written down as numbers alone.
pub trait Values: PartialEq + Debug {
    /// One for each, in the order of the result's fields.
    type Fields: Copy;

    fn of(fields: Self::Fields) -> Self;

    /// As it is printed beside another that it differs from.
    fn beside(&self, _other: &Self) -> String {
        format!("{self:?}")
    }
}

/// Declares a result: the refusal, then fields with the names that they have in
/// the reference's values.
macro_rules! result {
    ($function:literal $result:ident of $values:ident: $($field:ident),+) => {
        #[doc = concat!("The result of ", $function, ".")]
        #[repr(C)]
        #[derive(Clone, Copy, Debug, PartialEq, Eq)]
        pub struct $result {
            pub refusal: u32,
            $(pub $field: u32,)+
        }

        impl Values for $values {
            type Fields = [u32; [$(stringify!($field)),+].len()];

            fn of([$($field),+]: Self::Fields) -> Self {
                $values { $($field),+ }
            }
        }

        impl From<$result> for Answer<$values> {
            fn from(result: $result) -> Self {
                let values = $values { $($field: result.$field),+ };
                let zeros = $values { $($field: 0),+ };
                Answer::of_fields(result.refusal, values, &zeros)
            }
        }

        /// What the function is to give for this answer.
        impl From<Result<$values, u32>> for $result {
            fn from(answer: Result<$values, u32>) -> Self {
                match answer {
                    Ok(values) => $result { refusal: 0, $($field: values.$field),+ },
                    Err(refusal) => $result { refusal, $($field: 0),+ },
                }
            }
        }
    };
}

result!("`ne_header`" HeaderResult of Tables: header_at, unit, segments_at, segments, modules_at, modules,
    entries_at, entries_len, nonresident_at, nonresident_len, resident_at, imported_at, resources_at);
result!("`ne_segment`" SegmentResult of Segment: start, stored, flags, allocation, records);
result!("`ne_ordinal`" OrdinalResult of Entry: segment, offset, flag);
result!("the name queries" NameResult of Name: number, text_at, text_len, ordinal);
result!("`ne_module`" ModuleResult of Module: text_at, text_len);
result!("the resource queries" ResourceResult of Resource: type_, id, flags, data_at, data_len);

/// The result of `ne_prepare`. What it stands for depends on lent memory too.
#[repr(C)]
#[derive(Clone, Copy, Debug, PartialEq, Eq)]
pub struct PrepareResult {
    pub refusal: u32,
    pub record: u32,
    pub sites: u32,
}
