//! A plain reader of images: it gives document 01's refusal number or what it
//! found.

use std::ops::Range;

pub struct Header {
    at: usize,
    pub segments: usize,
    pub modules: usize,
    pub shift: u32,
}

pub fn byte(bytes: &[u8], at: usize) -> Option<usize> {
    bytes.get(at).map(|value| usize::from(*value))
}

pub fn word(bytes: &[u8], at: usize) -> Option<usize> {
    Some(byte(bytes, at)? | byte(bytes, at + 1)? << 8)
}

pub fn dword(bytes: &[u8], at: usize) -> Option<usize> {
    Some(word(bytes, at)? | word(bytes, at + 2)? << 16)
}

impl Header {
    fn word(&self, bytes: &[u8], offset: usize) -> usize {
        word(bytes, self.at + offset).unwrap_or(0)
    }

    /// A table's place from the file's start.
    fn place(&self, bytes: &[u8], offset: usize) -> usize {
        self.at + self.word(bytes, offset)
    }
}

/// Refusals 1 to 7.
pub fn header(bytes: &[u8]) -> Result<Header, u8> {
    let length = bytes.len();
    require(length >= 64, 1)?;
    require(length <= 16_777_216, 2)?;
    require(bytes.starts_with(b"MZ"), 3)?;
    let at = dword(bytes, 0x3C).ok_or(4)?;
    require(at >= 64 && at + 64 <= length, 4)?;
    require(bytes[at..].starts_with(b"NE"), 5)?;
    let mut header = Header {
        at,
        segments: 0,
        modules: 0,
        shift: 0,
    };
    header.segments = header.word(bytes, 0x1C);
    header.modules = header.word(bytes, 0x1E);
    header.shift = header.word(bytes, 0x32) as u32;
    require(header.shift <= 15, 6)?;
    let sized = [
        (header.place(bytes, 0x22), 8 * header.segments),
        (header.place(bytes, 0x28), 2 * header.modules),
        (header.place(bytes, 0x04), header.word(bytes, 0x06)),
        (dword(bytes, at + 0x2C).ok_or(4)?, header.word(bytes, 0x20)),
    ];
    let fits = |(place, size): (usize, usize)| size == 0 || place + size <= length;
    require(sized.into_iter().all(fits), 7)?;
    Ok(header)
}

fn require(holds: bool, refusal: u8) -> Result<(), u8> {
    if holds {
        Ok(())
    } else {
        Err(refusal)
    }
}

/// Segment, offset and flag by ordinal less 1; `None` where null.
pub type Entries = Vec<Option<(usize, usize, usize)>>;

/// Refusals 12 to 14.
pub fn entries(bytes: &[u8]) -> Result<Entries, u8> {
    let header = header(bytes)?;
    let size = header.word(bytes, 0x06);
    let mut found = Entries::new();
    if size == 0 {
        return Ok(found);
    }
    let start = header.place(bytes, 0x04);
    let table = &bytes[start..start + size];
    let mut at = 0;
    loop {
        let count = byte(table, at).ok_or(12)?;
        if count == 0 {
            return Ok(found);
        }
        let segment = byte(table, at + 1).ok_or(12)?;
        require(found.len() + count <= 65_535, 14)?;
        at += 2;
        let each = match segment {
            0 => 0,
            255 => 6,
            _ => 3,
        };
        let bundle = table.get(at..at + each * count).ok_or(12)?;
        for number in 0..count {
            let part = &bundle[each * number..each * number + each];
            found.push(entry(part, segment, header.segments)?);
        }
        at += each * count;
    }
}

fn entry(part: &[u8], bundle: usize, segments: usize) -> Result<Option<(usize, usize, usize)>, u8> {
    let found = match *part {
        [flag, 0xCD, 0x3F, segment, low, high] => (segment, low, high, flag),
        [flag, low, high] => (bundle as u8, low, high, flag),
        [] => return Ok(None),
        _ => return Err(13),
    };
    let segment = usize::from(found.0);
    require(segment >= 1 && segment <= segments, 13)?;
    let offset = usize::from(u16::from_le_bytes([found.1, found.2]));
    Ok(Some((segment, offset, usize::from(found.3))))
}

/// Text places and ordinal words.
pub type Names = Vec<(Range<usize>, usize)>;

/// One list, which ends before `limit`.
fn list(bytes: &[u8], start: usize, limit: usize) -> Result<Names, u8> {
    let part = &bytes[..limit];
    let mut found = Vec::new();
    let mut at = start;
    loop {
        let length = byte(part, at).ok_or(16)?;
        if length == 0 {
            return Ok(found);
        }
        let text = at + 1..at + 1 + length;
        let ordinal = word(part, text.end).ok_or(16)?;
        at = text.end + 2;
        found.push((text, ordinal));
    }
}

/// Resident names, then nonresident ones; refusal 16.
pub fn names(bytes: &[u8]) -> Result<[Names; 2], u8> {
    let header = header(bytes)?;
    let resident = list(bytes, header.place(bytes, 0x26), bytes.len())?;
    let size = header.word(bytes, 0x20);
    let start = dword(bytes, header.at + 0x2C).unwrap_or(0);
    let nonresident = match size {
        0 => Vec::new(),
        _ => list(bytes, start, start + size)?,
    };
    Ok([resident, nonresident])
}

/// The string at a place in the imported names.
fn string(bytes: &[u8], header: &Header, place: usize) -> Option<Range<usize>> {
    let at = header.place(bytes, 0x2A) + place;
    let length = byte(bytes, at)?;
    let end = at + 1 + length;
    (length > 0 && end <= bytes.len()).then_some(at + 1..end)
}

/// Refusals 8 and 16.
pub fn module(bytes: &[u8], number: usize) -> Result<Range<usize>, u8> {
    let header = header(bytes)?;
    require(number >= 1 && number <= header.modules, 8)?;
    let at = header.place(bytes, 0x28) + 2 * (number - 1);
    let place = word(bytes, at).ok_or(16)?;
    string(bytes, &header, place).ok_or(16)
}

pub struct Found {
    pub kind: usize,
    pub id: usize,
    pub data: Range<usize>,
}

/// All resources; refusal 18.
pub fn resources(bytes: &[u8]) -> Result<Vec<Found>, u8> {
    let header = header(bytes)?;
    let mut found = Vec::new();
    if header.word(bytes, 0x24) == header.word(bytes, 0x26) {
        return Ok(found);
    }
    let mut at = header.place(bytes, 0x24);
    let shift = word(bytes, at).ok_or(18)?;
    require(shift <= 15, 18)?;
    at += 2;
    loop {
        let kind = word(bytes, at).ok_or(18)?;
        if kind == 0 {
            return Ok(found);
        }
        let count = word(bytes, at + 2).ok_or(18)?;
        at += 8;
        require(at + 12 * count <= bytes.len(), 18)?;
        for _ in 0..count {
            let field = |offset| word(bytes, at + offset).unwrap_or(0);
            let start = field(0) << shift;
            let data = start..start + (field(2) << shift);
            let id = field(6);
            found.push(Found { kind, id, data });
            at += 12;
        }
    }
}

pub struct Segment {
    pub stored: Range<usize>,
    pub flags: usize,
    pub allocation: usize,
    /// The places of the records.
    pub records: Vec<usize>,
}

/// Refusals 8, 10, 11 and 9.
pub fn segment(bytes: &[u8], number: usize) -> Result<Segment, u8> {
    let header = header(bytes)?;
    require(number >= 1 && number <= header.segments, 8)?;
    let at = header.place(bytes, 0x22) + 8 * (number - 1);
    let field = |offset| word(bytes, at + offset).unwrap_or(0);
    let whole = |length: usize| if length == 0 { 65_536 } else { length };
    let (sector, flags, allocation) = (field(0), field(4), whole(field(6)));
    require(flags & 8 == 0, 10)?;
    let start = sector << header.shift;
    let length = if sector == 0 { 0 } else { whole(field(2)) };
    require(allocation >= length, 11)?;
    let end = start + length;
    require(sector == 0 || end <= bytes.len(), 9)?;
    let mut records = Vec::new();
    if flags & 0x100 != 0 {
        require(sector != 0, 9)?;
        let count = word(bytes, end).ok_or(9)?;
        records.extend((0..count).map(|record| end + 2 + 8 * record));
        require(end + 2 + 8 * count <= bytes.len(), 9)?;
    }
    Ok(Segment {
        stored: start..end,
        flags,
        allocation,
        records,
    })
}

/// The site count of preparing, or the refusal and the record's number.
pub fn prepare(bytes: &[u8], number: usize) -> Result<usize, (u8, usize)> {
    let before = |refusal| (refusal, 0);
    let header = header(bytes).map_err(before)?;
    require(number >= 1 && number <= header.segments, 8).map_err(before)?;
    let entries = entries(bytes).map_err(before)?;
    let segment = segment(bytes, number).map_err(before)?;
    let stored = &bytes[segment.stored.clone()];
    let mut taken = vec![false; stored.len()];
    let mut sites = 0;
    for (index, at) in segment.records.iter().enumerate() {
        let record = &bytes[*at..*at + 8];
        let at_record = |refusal| (refusal, index + 1);
        let width = width(record).map_err(at_record)?;
        require(resolves(bytes, &header, &entries, record), 23).map_err(at_record)?;
        if record[1] & 3 != 3 {
            sites += follow(record, width, stored, &mut taken).map_err(at_record)?;
        }
    }
    Ok(sites)
}

fn width(record: &[u8]) -> Result<usize, u8> {
    match (record[0] & 15, record[1] & 4) {
        (0, 4) => Ok(1),
        (0 | 2 | 5, _) => Ok(2),
        (3, _) => Ok(4),
        _ => Err(22),
    }
}

fn resolves(bytes: &[u8], header: &Header, entries: &Entries, record: &[u8]) -> bool {
    let first = word(record, 4).unwrap_or(0);
    let last = word(record, 6).unwrap_or(0);
    let is_module = first >= 1 && first <= header.modules;
    match (record[1] & 3, usize::from(record[4])) {
        (0, 255) => last >= 1 && matches!(entries.get(last - 1), Some(Some(_))),
        (0, segment) => segment >= 1 && segment <= header.segments,
        (1, _) => is_module,
        (2, _) => is_module && string(bytes, header, last).is_some(),
        _ => true,
    }
}

fn follow(record: &[u8], width: usize, stored: &[u8], taken: &mut [bool]) -> Result<usize, u8> {
    let mut site = word(record, 2).unwrap_or(0);
    let mut count = 0;
    loop {
        let span = site..site + width;
        let marks = taken.get_mut(span).ok_or(24)?;
        require(marks.iter().all(|mark| !*mark), 25)?;
        marks.fill(true);
        count += 1;
        require(count <= 65_536, 26)?;
        if record[1] & 4 != 0 {
            return Ok(count);
        }
        site = word(stored, site).ok_or(24)?;
        if site == 0xFFFF {
            return Ok(count);
        }
    }
}
