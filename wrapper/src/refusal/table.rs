//! All refusals: each one's number, name and texts stand here and nowhere else.

use super::Texts;

/// Declares [`Refusal`] from number, name, text, meaning and advice. The last two may go over several lines.
macro_rules! refusals {
    ($($number:literal $name:ident: $text:literal, $($meaning:literal)+, $($advice:literal)+;)*) => {
        /// Why a file, or a request for something in it, is refused.
        #[derive(Clone, Copy, Debug, PartialEq, Eq, PartialOrd, Ord, Hash)]
        #[non_exhaustive]
        #[repr(u32)]
        pub enum Refusal {
            $(#[doc = concat!($number, ": ", $text, ". ", $($meaning),+)] $name = $number,)*
        }

        impl Refusal {
            /// All refusals, in the order of their numbers.
            pub const ALL: [Refusal; [$($number),*].len()] = [$(Refusal::$name),*];

            pub(super) const fn texts(self) -> Texts {
                match self {
                    $(Refusal::$name => Texts {
                        text: $text,
                        meaning: concat!($($meaning),+),
                        advice: concat!($($advice),+),
                    },)*
                }
            }
        }
    };
}

refusals! {
    1 ImageTooShort: "the file has under 64 bytes",
        "A module starts with an MZ header of 64 bytes, and the file is shorter than that.",
        "The upload was cut off, or it is no module. Upload the whole file again.";
    2 ImageTooLong: "the file has over 16,777,216 bytes",
        "The file is longer than the longest that is read, 16 MiB.",
        "Upload the module alone, without data that was added behind it, and not an archive or a disk image.";
    3 NoMz: "no MZ at the start",
        "The first two bytes of a module are the letters MZ.",
        "The file is no program, library or driver, or it is packed in an archive. Upload the unpacked module.";
    4 HeaderOutside: "the NE header is not in the file",
        "The double word at 3Ch places the NE header. The place is under 64, or the header's 64 bytes do not lie in "
        "the file.",
        "A program for DOS has no NE header. If it is a Windows module, it was cut off: upload the whole file again.";
    5 NoNe: "no NE at the NE header's place",
        "The NE header starts with the letters NE.",
        "The module is of another format, as those for 32-bit Windows are (PE, LE). Upload the one for 16-bit "
        "Windows.";
    6 AlignmentShift: "the alignment shift is over 15",
        "The word at 32h of the NE header is the alignment shift, by which sectors become places. It is 15 at most.",
        "The header is damaged. Upload the file again, or link the module with a smaller alignment.";
    7 TableOutside: "a table leaves the file",
        "The segment table, the module references, the entry table or the nonresident names pass the end of the file.",
        "The upload was cut off, a tool has stripped tables from the file's end, or the header is damaged. Upload the "
        "whole file, as it was linked.";
    8 NoSuchNumber: "no such number",
        "The number that was asked for is 0 or above the count of the segments, names, modules or resources.",
        "The file is not at fault. Ask for a number from 1 to the count.";
    9 SegmentOutside: "the segment leaves the file",
        "The segment's stored bytes, the count of its fixup records or the records pass the end of the file, or it "
        "has records and no stored bytes. Its place counts in sectors of 2 to the alignment shift; a shift of 0 is "
        "taken as it stands, and not as 9.",
        "The upload was cut off, or the segment table or the alignment shift is damaged. Upload the whole file again, "
        "or link it with the shift written out.";
    10 Iterated: "the segment is iterated",
        "The segment's bytes are stored as repeated blocks (flag 0008h). Linkers that pack a module write them on "
        "purpose, and they are not read yet.",
        "The file need not be at fault: link the module without packing it. If it never was packed, the segment table "
        "is damaged, so upload the file again.";
    11 AllocationTooSmall: "the allocation is under the stored length",
        "The segment takes fewer bytes in memory than are stored for it.",
        "The segment table is damaged, or a tool has changed the stored bytes without it. Upload the file again, or "
        "link it again.";
    12 EntryTableWithoutEnd: "the entry table ends inside a bundle or has no end byte",
        "The bytes of the entry table end inside a bundle, or before the byte 0 that ends it.",
        "The entry table or its length in the header is damaged. Upload the file again, or link it again.";
    13 BadEntry: "an entry's segment or its CDh 3Fh is missing",
        "An entry point lies in segment 0 or in one above the count of the segment table, or a movable entry lacks "
        "the bytes CDh 3Fh. A bundle of segment 254 is taken for one of that segment, although later tools write it "
        "for constants.",
        "A module that exports constants is not at fault and not read yet: link it with none. Otherwise the entry "
        "table or the count of segments is damaged, so upload the file again.";
    14 TooManyOrdinals: "over 65,535 ordinals",
        "The entry table has more ordinals than a word can count.",
        "The entry table is damaged. Upload the file again, or link it with fewer entry points.";
    15 NoSuchOrdinal: "no such ordinal",
        "The ordinal that was asked for is not covered by the entry table, or no entry point has it.",
        "The file is not at fault. Ask for an ordinal that is in the listing of its entry points.";
    16 BadNames: "a name list or a module's name is unsound",
        "The resident names do not end inside the file, the nonresident names do not end inside their byte count, or "
        "a module's name is empty or passes the end of the file.",
        "The upload was cut off, a tool has stripped or shortened the names, or they are damaged. Upload the whole "
        "file, as it was linked.";
    17 NoSuchName: "no such name",
        "No name has exactly these bytes. Capital and small letters differ, and a list's first string is not "
        "searched.",
        "The file is not at fault. Ask for a name as it stands in its names.";
    18 BadResourceTable: "the resource table leaves the file, or its shift is over 15",
        "The resource table passes the end of the file before its type 0, or its shift is over 15.",
        "The upload was cut off, or the resource table is damaged. Upload the whole file again, or add its resources "
        "again.";
    19 NoSuchResource: "no such resource",
        "No resource has this type and this id. Both are words with the bit 8000h.",
        "The file is not at fault. Ask for a type and an id that are in its resource table.";
    20 ResourceOutside: "the resource's data leave the file",
        "The resource is in the table, and its data pass the end of the file.",
        "The upload was cut off, or the resource table is damaged. Upload the whole file again.";
    21 TooLittleLent: "a list or a buffer is too short",
        "There are fewer selectors than segments, fewer answers than records, less output than the allocation or "
        "fewer marks than stored bytes.",
        "The file is not at fault. Prepare the segment with longer lists or more room.";
    22 FixupType: "the fixup's type is unknown",
        "A fixup record is of another type than 0 (low byte), 2 (selector), 3 (far pointer) or 5 (offset).",
        "The record is damaged, or is one for 32-bit code. Upload the file again, or the module for 16-bit Windows.";
    23 FixupTarget: "the fixup's target does not resolve",
        "A fixup record names a segment, an entry point, a module or an imported name that is not there.",
        "The record or the table that it names is damaged. Upload the file again, or link it again.";
    24 SpanOutside: "span outside the stored bytes",
        "A site of a fixup record, or of the chain that starts there, does not lie in the segment's stored bytes.",
        "The record or the chain is damaged. Upload the file again, or link it again.";
    25 SpansMeet: "span meets an earlier one",
        "Two sites of the segment's fixups share a byte, as they do where a chain comes back to itself.",
        "The record or the chain is damaged. Upload the file again, or link it again.";
    26 TooManySites: "over 65,536 sites",
        "The segment's fixups have over 65,536 sites. It is never given: that many spans that do not meet have no "
        "room.",
        "Report this answer to whoever runs this program.";
}
