//! Queries that are wrong in one respect, to be found out.

mod fixups;
mod header;
pub mod list;
pub mod module;
pub mod names;
pub mod ordinal;
pub mod prepare;
pub mod resources;
pub mod segment;
pub mod step;
pub mod tables;

use crate::calls::{
    Call, HeaderQuery, List, ModuleQuery, NameByBytes, NameByNumber, OrdinalQuery, Prepare, Query,
    ResourceByNumber, ResourceByWords, SegmentQuery,
};

/// A call with a name for what is wrong in it.
pub type Named = (&'static str, Box<dyn Call>);

/// The right ones. Those that are walked or looked up are right but for their
/// fault.
pub fn right() -> Vec<Named> {
    vec![
        named("header", tables::call(tables::right)),
        named("segment", segment::call(segment::right)),
        named("ordinal", ordinal::call(ordinal::right)),
        named("ordinal, walked", ordinal::call(ordinal::walked)),
        named("name", names::by_number(names::right_number)),
        named("name, looked up", names::by_number(names::looked_up_number)),
        named("bytes", names::by_bytes(names::right_bytes)),
        named("bytes, looked up", names::by_bytes(names::looked_up_bytes)),
        named("module", module::call(module::right)),
        named("module, looked up", module::call(module::looked_up)),
        named("resource", resources::by_number(resources::right_number)),
        named(
            "resource, looked up",
            resources::by_number(resources::looked_up_number),
        ),
        named("words", resources::by_words(resources::right_words)),
        named(
            "words, looked up",
            resources::by_words(resources::looked_up_words),
        ),
        named("preparing", prepare::call(prepare::right)),
        named("preparing, worked", prepare::call(prepare::worked)),
        named("step", step::call(step::right)),
        named("step, worked", step::call(step::worked)),
        named("listing", list::call(list::right)),
        named("listing, written", list::call(list::written)),
    ]
}

/// Wrong at an edge that is written out by hand.
pub fn at_an_edge() -> Vec<Named> {
    let mut all = Vec::new();
    all.extend(tables::WRONG.map(|(name, query)| named(name, tables::call(query))));
    all.extend(segment::WRONG.map(|(name, query)| named(name, segment::call(query))));
    all.extend(ordinal::WRONG.map(|(name, query)| named(name, ordinal::call(query))));
    all.extend(names::WRONG_BY_NUMBER.map(|(name, query)| named(name, names::by_number(query))));
    all.extend(names::WRONG_BY_BYTES.map(|(name, query)| named(name, names::by_bytes(query))));
    all.extend(module::WRONG.map(|(name, query)| named(name, module::call(query))));
    let by_number = resources::WRONG_BY_NUMBER;
    all.extend(by_number.map(|(name, query)| named(name, resources::by_number(query))));
    let by_words = resources::WRONG_BY_WORDS;
    all.extend(by_words.map(|(name, query)| named(name, resources::by_words(query))));
    all.extend(wrong_preparing());
    all.extend(wrong_steps());
    all.extend(list::WRONG_TEXT.map(|(name, query)| named(name, list::call(query))));
    all.extend(list::WRONG_ROOM.map(|(name, query)| named(name, list::call(query))));
    all.extend(wrong_headers());
    all
}

fn wrong_preparing() -> Vec<Named> {
    let mut all = Vec::new();
    all.extend(prepare::WRONG);
    all.extend(prepare::WRONG_FIXUPS);
    all.extend(prepare::WRONG_WORK);
    all.extend(prepare::WRONG_ORDER);
    all.into_iter()
        .map(|(name, answer)| named(name, prepare::call(answer)))
        .collect()
}

fn wrong_steps() -> Vec<Named> {
    let all = step::WRONG.into_iter().chain(step::WRONG_APART);
    all.map(|(name, answer, _)| named(name, step::call(answer)))
        .collect()
}

fn wrong_headers() -> Vec<Named> {
    let mut all = Vec::new();
    add_wrong_headers::<HeaderQuery>(&mut all);
    add_wrong_headers::<SegmentQuery>(&mut all);
    add_wrong_headers::<OrdinalQuery>(&mut all);
    add_wrong_headers::<NameByNumber>(&mut all);
    add_wrong_headers::<NameByBytes>(&mut all);
    add_wrong_headers::<ModuleQuery>(&mut all);
    add_wrong_headers::<ResourceByNumber>(&mut all);
    add_wrong_headers::<ResourceByWords>(&mut all);
    add_wrong_headers::<Prepare>(&mut all);
    add_wrong_headers::<List>(&mut all);
    all
}

fn add_wrong_headers<Q: Query>(all: &mut Vec<Named>)
where
    Q::Result: From<Result<Q::Values, Q::Why>>,
{
    let wrong = header::functions::<Q>().into_iter();
    all.extend(wrong.map(|(name, function)| named(name, function)));
}

/// Wrong in a rare case only, which is for the generated cases to find.
pub fn rarely() -> Vec<Named> {
    vec![
        named("rare unit", tables::call(tables::rare_unit)),
        named("rare start", segment::call(segment::rare_start)),
        named("rare offset", ordinal::call(ordinal::rare_offset)),
        named("rare ordinal", names::by_number(names::rare_ordinal)),
        named("rare name", names::by_bytes(names::rare_miss)),
        named("rare length", module::call(module::rare_length)),
        named("rare flags", resources::by_number(resources::rare_flags)),
        named("rare words", resources::by_words(resources::rare_miss)),
        named("rare count", prepare::call(prepare::rare_count)),
        named("rare byte", prepare::call(prepare::rare_byte)),
        named("rare step", step::call(step::rare_byte)),
        named("rare letter", list::call(list::rare_letter)),
    ]
}

/// Steps that are wrong beside right preparing, which the orders of a segment's
/// records show.
pub fn in_some_order() -> Vec<Named> {
    let wrong = step::WRONG.into_iter();
    wrong
        .map(|(name, _, step)| named(name, step::in_every_order(step)))
        .collect()
}

fn named(name: &'static str, call: impl Call + 'static) -> Named {
    (name, Box::new(call))
}

/// Refusals 1 to 7, which are another's subject; 8 says that they are passed.
fn sound_header(image: &[u8]) -> Result<(), u32> {
    match reference::segment(image, 0) {
        Err(refusal @ 1..=7) => Err(refusal),
        _ => Ok(()),
    }
}

/// Two refusals change places.
fn exchanged<T>(answer: Result<T, u32>, one: u32, other: u32) -> Result<T, u32> {
    answer.map_err(|refusal| match refusal {
        _ if refusal == one => other,
        _ if refusal == other => one,
        _ => refusal,
    })
}
