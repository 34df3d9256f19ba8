//! The results of the exported functions, field by field as `include/ne.h` has
//! them.

#[repr(C)]
pub struct HeaderResult {
    pub refusal: u32,
    pub header_at: u32,
    pub unit: u32,
    pub segments_at: u32,
    pub segments: u32,
    pub modules_at: u32,
    pub modules: u32,
    pub entries_at: u32,
    pub entries_len: u32,
    pub nonresident_at: u32,
    pub nonresident_len: u32,
    pub resident_at: u32,
    pub imported_at: u32,
    pub resources_at: u32,
}

#[repr(C)]
pub struct SegmentResult {
    pub refusal: u32,
    pub start: u32,
    pub stored: u32,
    pub flags: u32,
    pub allocation: u32,
    pub records: u32,
}

#[repr(C)]
pub struct OrdinalResult {
    pub refusal: u32,
    pub segment: u32,
    pub offset: u32,
    pub flag: u32,
}

#[repr(C)]
pub struct NameResult {
    pub refusal: u32,
    pub number: u32,
    pub text_at: u32,
    pub text_len: u32,
    pub ordinal: u32,
}

#[repr(C)]
pub struct ModuleResult {
    pub refusal: u32,
    pub text_at: u32,
    pub text_len: u32,
}

#[repr(C)]
pub struct ResourceResult {
    pub refusal: u32,
    pub kind: u32,
    pub id: u32,
    pub flags: u32,
    pub data_at: u32,
    pub data_len: u32,
}

#[repr(C)]
pub struct PrepareResult {
    pub refusal: u32,
    pub record: u32,
    pub sites: u32,
}
