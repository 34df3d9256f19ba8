//! Lent bytes as they are printed.

/// Bytes that are printed at most.
const PRINTED: usize = 64;

/// The first bytes, and how many there are.
pub fn text(bytes: &[u8]) -> String {
    let more = match bytes.len() > PRINTED {
        true => " and so on",
        false => "",
    };
    let first = &bytes[..bytes.len().min(PRINTED)];
    format!("[{}{more}] of {} bytes", hex(first), bytes.len())
}

/// The bytes from a little before the first place on where the others differ.
pub fn beside(bytes: &[u8], others: &[u8]) -> String {
    let different = |(one, other): (&u8, &u8)| one != other;
    match bytes.iter().zip(others).position(different) {
        None if bytes.len() == others.len() => "as the other".to_string(),
        None => text(bytes),
        Some(place) => {
            let from = place.saturating_sub(PRINTED / 2);
            let to = bytes.len().min(from + PRINTED);
            let shown = hex(&bytes[from..to]);
            format!("{:02X} at {place}, from {from} on [{shown}]", bytes[place])
        }
    }
}

fn hex(bytes: &[u8]) -> String {
    let bytes: Vec<String> = bytes.iter().map(|byte| format!("{byte:02X}")).collect();
    bytes.join(" ")
}
