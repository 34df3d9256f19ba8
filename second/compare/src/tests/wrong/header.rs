//! Queries that leave a check of 1 to 7 out. All else is right.

use crate::calls::{Function, Query};
use crate::stated;

type Answer<Q> = fn(&[u8], &<Q as Query>::Request) -> <Q as Query>::Result;

/// They are right about an image in which the check's field is made good.
pub fn functions<Q: Query>() -> Vec<(&'static str, Function<Q>)>
where
    Q::Result: From<Result<Q::Values, Q::Why>>,
{
    let wrong = headers::<Q>().into_iter().chain(tables::<Q>());
    wrong
        .map(|(name, answer)| (name, Function { answer }))
        .collect()
}

/// Refusals 2 to 6.
fn headers<Q: Query>() -> [(&'static str, Answer<Q>); 5]
where
    Q::Result: From<Result<Q::Values, Q::Why>>,
{
    [
        ("2 left out", |image, request| {
            let length = image.len().min(16_777_216);
            Q::reference(&image[..length], request).into()
        }),
        ("ZM too", |image, request| {
            good::<Q>(image, request, image.starts_with(b"ZM"), 0, b"MZ")
        }),
        ("only N of NE", |image, request| {
            let at = in_header(image, 0);
            good::<Q>(image, request, image.get(at) == Some(&b'N'), at, b"NE")
        }),
        ("shift 16 too", |image, request| {
            let is_16 = stated::ne_word(image, 0x32) == Some(16);
            good::<Q>(image, request, is_16, in_header(image, 0x32), &[15])
        }),
        ("6 in a byte", |image, request| {
            good::<Q>(image, request, true, in_header(image, 0x33), &[0])
        }),
    ]
}

/// Refusal 7.
fn tables<Q: Query>() -> [(&'static str, Answer<Q>); 4]
where
    Q::Result: From<Result<Q::Values, Q::Why>>,
{
    [
        ("7 left out for segments", |image, request| {
            without::<Q>(image, request, 0x1C, 0x22, 8)
        }),
        ("7 left out for modules", |image, request| {
            without::<Q>(image, request, 0x1E, 0x28, 2)
        }),
        ("7 left out for entries", |image, request| {
            without::<Q>(image, request, 0x06, 0x04, 1)
        }),
        ("7 left out for names", |image, request| {
            let place = stated::nonresident_place(image).unwrap_or(0);
            let size = stated::nonresident_size(image).unwrap_or(0);
            let leaves = place + size > image.len();
            good::<Q>(image, request, leaves, in_header(image, 0x20), &[0, 0])
        }),
    ]
}

/// The place of an offset in the NE header.
fn in_header(image: &[u8], offset: usize) -> usize {
    stated::header_at(image).unwrap_or(0) + offset
}

/// The right answer about the image with these bytes put, if they are to be.
fn good<Q: Query>(
    image: &[u8],
    request: &Q::Request,
    put: bool,
    at: usize,
    held: &[u8],
) -> Q::Result
where
    Q::Result: From<Result<Q::Values, Q::Why>>,
{
    let end = at.saturating_add(held.len());
    if !put || end > image.len() || image.len() > 16_777_216 {
        return Q::reference(image, request).into();
    }
    let changed = [&image[..at], held, &image[end..]].concat();
    Q::reference(&changed, request).into()
}

/// The right answer about the image without this table, if that leaves it.
fn without<Q: Query>(
    image: &[u8],
    request: &Q::Request,
    count_at: usize,
    place_at: usize,
    each: usize,
) -> Q::Result
where
    Q::Result: From<Result<Q::Values, Q::Why>>,
{
    let place = stated::place(image, place_at).unwrap_or(0);
    let count = stated::ne_word(image, count_at).unwrap_or(0) as usize;
    let leaves = place + each * count > image.len();
    good::<Q>(image, request, leaves, in_header(image, count_at), &[0, 0])
}
