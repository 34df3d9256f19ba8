//! The library's answers, as the benchmark takes them.

use bench::answer::{Answer, Request};
use bench::queries::Ask;
use parchgable::{Image, Refusal};

/// Prepares a segment.
pub fn prepare(request: &Request, output: &mut [u8], marks: &mut [u8]) -> Answer {
    let image = Image::new(request.image);
    let (selectors, answers) = (request.selectors, request.answers);
    match image.prepare(request.number, selectors, answers, output, marks) {
        Ok(sites) => Answer {
            refusal: 0,
            record: 0,
            sites,
        },
        Err(refused) => Answer {
            refusal: refused.refusal.number(),
            record: refused.record.unwrap_or(0),
            sites: 0,
        },
    }
}

/// Answers a query as the second program does: with a refusal or 0, or with the
/// listing's length. The listing is written to `text`.
pub fn ask(ask: &Ask, image: &[u8], text: &mut [u8]) -> usize {
    let image = Image::new(image);
    match ask {
        Ask::Ordinal(number) => refusal(image.ordinal(*number)),
        Ask::NameByNumber(number) => refusal(image.name(*number)),
        Ask::NameByBytes(name) => refusal(image.find_name(name)),
        Ask::ResourceByNumber(number) => refusal(image.resource(*number)),
        Ask::ResourceByWords(kind, id) => refusal(image.find_resource(*kind, *id)),
        Ask::List => image.list_into(text),
    }
}

fn refusal<T>(answer: Result<T, Refusal>) -> usize {
    answer.map_or_else(|refusal| refusal.number() as usize, |_| 0)
}
