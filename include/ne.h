/*
 * Parchgable: a proved reader and segment preparer of 16-bit Windows modules (New Executable, "NE").
 *
 * Every function takes any bytes as an image and any number or name as a request, and returns. None of them allocates,
 * keeps a pointer, reads or writes outside the memory that is lent to it or uses any state of its own, so all may be called
 * from several threads at once.
 *
 * An image is a pointer and its length in bytes, from the first byte of the file ("MZ") on. A name that is asked for, a
 * list and lent room are a pointer and a length too, in elements. The pointer to an empty one may be anything. Places are
 * counted from the file's start.
 *
 * A result's `refusal` is 0 if the request was accepted. Otherwise it is the number of the first check that failed, as
 * `enum ne_refusal` has them, and every other field is 0, but for the `record` of refusals 22 to 26.
 */
#ifndef NE_H
#define NE_H

#include <stddef.h>
#include <stdint.h>

/* What follows is written by include/refusals, from Cargo.toml and wrapper/src/refusal/table.rs. */

/* The version of the library that this header belongs to. */
#define NE_VERSION "0.1.0"
#define NE_VERSION_MAJOR 0
#define NE_VERSION_MINOR 1
#define NE_VERSION_PATCH 0

/*
 * What a result's `refusal` can be: each with its meaning before it, and after it the text that ne_refusal_text
 * gives. Both call the image the file. The numbers may have gaps, and a later version may have more of them.
 */
enum ne_refusal {
    NE_ACCEPTED = 0,

    /* A module starts with an MZ header of 64 bytes, and the file is shorter than that. */
    NE_REFUSED_IMAGE_TOO_SHORT = 1, /* the file has under 64 bytes */

    /* The file is longer than the longest that is read, 16 MiB. */
    NE_REFUSED_IMAGE_TOO_LONG = 2, /* the file has over 16,777,216 bytes */

    /* The first two bytes of a module are the letters MZ. */
    NE_REFUSED_NO_MZ = 3, /* no MZ at the start */

    /*
     * The double word at 3Ch places the NE header. The place is under 64, or the header's 64 bytes do not lie in the
     * file.
     */
    NE_REFUSED_HEADER_OUTSIDE = 4, /* the NE header is not in the file */

    /* The NE header starts with the letters NE. */
    NE_REFUSED_NO_NE = 5, /* no NE at the NE header's place */

    /* The word at 32h of the NE header is the alignment shift, by which sectors become places. It is 15 at most. */
    NE_REFUSED_ALIGNMENT_SHIFT = 6, /* the alignment shift is over 15 */

    /* The segment table, the module references, the entry table or the nonresident names pass the end of the file. */
    NE_REFUSED_TABLE_OUTSIDE = 7, /* a table leaves the file */

    /* The number that was asked for is 0 or above the count of the segments, names, modules or resources. */
    NE_REFUSED_NO_SUCH_NUMBER = 8, /* no such number */

    /*
     * The segment's stored bytes, the count of its fixup records or the records pass the end of the file, or it has
     * records and no stored bytes. Its place counts in sectors of 2 to the alignment shift; a shift of 0 is taken as it
     * stands, and not as 9.
     */
    NE_REFUSED_SEGMENT_OUTSIDE = 9, /* the segment leaves the file */

    /*
     * The segment's bytes are stored as repeated blocks (flag 0008h). Linkers that pack a module write them on purpose,
     * and they are not read yet.
     */
    NE_REFUSED_ITERATED = 10, /* the segment is iterated */

    /* The segment takes fewer bytes in memory than are stored for it. */
    NE_REFUSED_ALLOCATION_TOO_SMALL = 11, /* the allocation is under the stored length */

    /* The bytes of the entry table end inside a bundle, or before the byte 0 that ends it. */
    NE_REFUSED_ENTRY_TABLE_WITHOUT_END = 12, /* the entry table ends inside a bundle or has no end byte */

    /*
     * An entry point lies in segment 0 or in one above the count of the segment table, or a movable entry lacks the
     * bytes CDh 3Fh. A bundle of segment 254 is taken for one of that segment, although later tools write it for
     * constants.
     */
    NE_REFUSED_BAD_ENTRY = 13, /* an entry's segment or its CDh 3Fh is missing */

    /* The entry table has more ordinals than a word can count. */
    NE_REFUSED_TOO_MANY_ORDINALS = 14, /* over 65,535 ordinals */

    /* The ordinal that was asked for is not covered by the entry table, or no entry point has it. */
    NE_REFUSED_NO_SUCH_ORDINAL = 15, /* no such ordinal */

    /*
     * The resident names do not end inside the file, the nonresident names do not end inside their byte count, or a
     * module's name is empty or passes the end of the file.
     */
    NE_REFUSED_BAD_NAMES = 16, /* a name list or a module's name is unsound */

    /* No name has exactly these bytes. Capital and small letters differ, and a list's first string is not searched. */
    NE_REFUSED_NO_SUCH_NAME = 17, /* no such name */

    /* The resource table passes the end of the file before its type 0, or its shift is over 15. */
    NE_REFUSED_BAD_RESOURCE_TABLE = 18, /* the resource table leaves the file, or its shift is over 15 */

    /* No resource has this type and this id. Both are words with the bit 8000h. */
    NE_REFUSED_NO_SUCH_RESOURCE = 19, /* no such resource */

    /* The resource is in the table, and its data pass the end of the file. */
    NE_REFUSED_RESOURCE_OUTSIDE = 20, /* the resource's data leave the file */

    /*
     * There are fewer selectors than segments, fewer answers than records, less output than the allocation or fewer
     * marks than stored bytes.
     */
    NE_REFUSED_TOO_LITTLE_LENT = 21, /* a list or a buffer is too short */

    /* A fixup record is of another type than 0 (low byte), 2 (selector), 3 (far pointer) or 5 (offset). */
    NE_REFUSED_FIXUP_TYPE = 22, /* the fixup's type is unknown */

    /* A fixup record names a segment, an entry point, a module or an imported name that is not there. */
    NE_REFUSED_FIXUP_TARGET = 23, /* the fixup's target does not resolve */

    /* A site of a fixup record, or of the chain that starts there, does not lie in the segment's stored bytes. */
    NE_REFUSED_SPAN_OUTSIDE = 24, /* span outside the stored bytes */

    /* Two sites of the segment's fixups share a byte, as they do where a chain comes back to itself. */
    NE_REFUSED_SPANS_MEET = 25, /* span meets an earlier one */

    /* The segment's fixups have over 65,536 sites. It is never given: that many spans that do not meet have no room. */
    NE_REFUSED_TOO_MANY_SITES = 26, /* over 65,536 sites */
};

/* The text of a refusal, "accepted" for 0, and "unknown refusal" for a number that has none. */
static inline const char *ne_refusal_text(uint32_t number)
{
    switch (number) {
    case NE_ACCEPTED: return "accepted";
    case NE_REFUSED_IMAGE_TOO_SHORT: return "the file has under 64 bytes";
    case NE_REFUSED_IMAGE_TOO_LONG: return "the file has over 16,777,216 bytes";
    case NE_REFUSED_NO_MZ: return "no MZ at the start";
    case NE_REFUSED_HEADER_OUTSIDE: return "the NE header is not in the file";
    case NE_REFUSED_NO_NE: return "no NE at the NE header's place";
    case NE_REFUSED_ALIGNMENT_SHIFT: return "the alignment shift is over 15";
    case NE_REFUSED_TABLE_OUTSIDE: return "a table leaves the file";
    case NE_REFUSED_NO_SUCH_NUMBER: return "no such number";
    case NE_REFUSED_SEGMENT_OUTSIDE: return "the segment leaves the file";
    case NE_REFUSED_ITERATED: return "the segment is iterated";
    case NE_REFUSED_ALLOCATION_TOO_SMALL: return "the allocation is under the stored length";
    case NE_REFUSED_ENTRY_TABLE_WITHOUT_END: return "the entry table ends inside a bundle or has no end byte";
    case NE_REFUSED_BAD_ENTRY: return "an entry's segment or its CDh 3Fh is missing";
    case NE_REFUSED_TOO_MANY_ORDINALS: return "over 65,535 ordinals";
    case NE_REFUSED_NO_SUCH_ORDINAL: return "no such ordinal";
    case NE_REFUSED_BAD_NAMES: return "a name list or a module's name is unsound";
    case NE_REFUSED_NO_SUCH_NAME: return "no such name";
    case NE_REFUSED_BAD_RESOURCE_TABLE: return "the resource table leaves the file, or its shift is over 15";
    case NE_REFUSED_NO_SUCH_RESOURCE: return "no such resource";
    case NE_REFUSED_RESOURCE_OUTSIDE: return "the resource's data leave the file";
    case NE_REFUSED_TOO_LITTLE_LENT: return "a list or a buffer is too short";
    case NE_REFUSED_FIXUP_TYPE: return "the fixup's type is unknown";
    case NE_REFUSED_FIXUP_TARGET: return "the fixup's target does not resolve";
    case NE_REFUSED_SPAN_OUTSIDE: return "span outside the stored bytes";
    case NE_REFUSED_SPANS_MEET: return "span meets an earlier one";
    case NE_REFUSED_TOO_MANY_SITES: return "over 65,536 sites";
    default: return "unknown refusal";
    }
}

/* Here ends what is written by include/refusals. */

#ifdef __cplusplus
extern "C" {
#endif

/* The headers of a module: where its tables stand. */
struct ne_header_result {
    uint32_t refusal;
    uint32_t header_at;       /* the place of the NE header */
    uint32_t unit;            /* the bytes of a sector: 2 to the alignment shift */
    uint32_t segments_at;     /* the place of the segment table */
    uint32_t segments;        /* how many segments it has, 0 to 65,535: as many selectors ne_prepare needs */
    uint32_t modules_at;      /* the place of the module references */
    uint32_t modules;         /* how many there are, 0 to 65,535 */
    uint32_t entries_at;      /* the place of the entry table */
    uint32_t entries_len;     /* its bytes, 0 to 65,535 */
    uint32_t nonresident_at;  /* the place of the nonresident names */
    uint32_t nonresident_len; /* their bytes, 0 to 65,535 */
    uint32_t resident_at;     /* the place of the resident names */
    uint32_t imported_at;     /* the place of the imported names */
    uint32_t resources_at;    /* the place of the resource table */
};

/*
 * Reads and checks the headers. A table whose size is 0 may be said to stand anywhere, and the last three may leave the image:
 * whoever reads one of them checks it. Refusals: 1 to 7.
 */
struct ne_header_result ne_header(const uint8_t *image, size_t image_len);

/* One record of the segment table. */
struct ne_segment_result {
    uint32_t refusal;
    uint32_t start;      /* the place of the stored bytes */
    uint32_t stored;     /* how many there are, 0 to 65,536 */
    uint32_t flags;      /* the record's flag word */
    uint32_t allocation; /* the bytes that the segment takes in memory, 1 to 65,536 */
    uint32_t records;    /* its fixup records, 0 to 65,535 */
};

/* The segment of a number, counted from 1. Refusals: 1 to 7, then 8, 10, 11, 9. */
struct ne_segment_result ne_segment(const uint8_t *image, size_t image_len, uint32_t number);

/* One entry of the entry table. */
struct ne_ordinal_result {
    uint32_t refusal;
    uint32_t segment; /* the segment's number, 1 to 255 */
    uint32_t offset;  /* the place in the segment, 0 to 65,535 */
    uint32_t flag;    /* the entry's flag byte */
};

/*
 * The entry of an ordinal, counted from 1. Refusals: 1 to 7, then 12 to 14 for the whole entry table, whatever the number
 * is, then 15.
 */
struct ne_ordinal_result ne_ordinal(const uint8_t *image, size_t image_len, uint32_t number);

/*
 * Lists the entries of all ordinals, a line each, as the program `list` does but for an image of any size:
 *
 *      ordinals 4          how many ordinals there are, those without an entry too
 *      1 1:0010 01         ordinal, segment:offset, flag
 *      4 2:0020 03
 *      end
 *
 * or one line, `refused 12` for example: 1 to 7, then 12 to 14. The lines go to the front of `text`, as much of them as fits,
 * with no byte 0 behind them, and the rest of `text` stays as it came. Returns the length of all lines, so that a first call
 * with no room tells how much a second one needs.
 *
 * `text` must not overlap the image.
 */
size_t ne_list(const uint8_t *image, size_t image_len, uint8_t *text, size_t text_len);

/* One string of the resident or the nonresident names. */
struct ne_name_result {
    uint32_t refusal;
    uint32_t number;   /* its number, counted from 1: the resident names first, each list's first string included */
    uint32_t text_at;  /* the place of its first text byte, which stands behind the length byte */
    uint32_t text_len; /* how many text bytes there are, 1 to 255 */
    uint32_t ordinal;  /* the ordinal word behind the text, 0 to 65,535 */
};

/*
 * The name of a number, counted from 1. Refusals: 1 to 7, then 16 for either list, whatever the number is, then 8. The
 * resident list has to end inside the image, and the nonresident one inside its byte count.
 */
struct ne_name_result ne_name_by_number(const uint8_t *image, size_t image_len, uint32_t number);

/*
 * The first name that has exactly these bytes, in the resident list from its second string on, then in the nonresident
 * list from its second string on. An empty name, or one of over 255 bytes, is not found. Refusals: 1 to 7, then 16 for
 * either list, whatever the name is, then 17.
 */
struct ne_name_result ne_name_by_bytes(const uint8_t *image, size_t image_len, const uint8_t *name, size_t name_len);

/* The string of one module reference. */
struct ne_module_result {
    uint32_t refusal;
    uint32_t text_at;  /* the place of its first text byte, which stands behind the length byte */
    uint32_t text_len; /* how many text bytes there are, 1 to 255 */
};

/* The module of a number, counted from 1. Refusals: 1 to 7, then 8, then 16 for its own string alone. */
struct ne_module_result ne_module(const uint8_t *image, size_t image_len, uint32_t number);

/* One resource of the resource table. */
struct ne_resource_result {
    uint32_t refusal;
    uint32_t type;     /* the type word of its block */
    uint32_t id;       /* its id word */
    uint32_t flags;    /* its flag word */
    uint32_t data_at;  /* the place of its data */
    uint32_t data_len; /* how many bytes of data there are */
};

/*
 * The resource of a number, counted from 1 through all types. Refusals: 1 to 7, then 18 for the whole table, whatever the
 * number is, then 8, then 20.
 */
struct ne_resource_result ne_resource_by_number(const uint8_t *image, size_t image_len, uint32_t number);

/*
 * The first resource that has this type word and this id word. A word without the bit 8000h, or over FFFFh, finds nothing.
 * Refusals: 1 to 7, then 18 for the whole table, whatever the words are, then 19, then 20.
 */
struct ne_resource_result ne_resource_by_words(const uint8_t *image, size_t image_len, uint32_t type, uint32_t id);

/* One prepared segment. */
struct ne_prepare_result {
    uint32_t refusal;
    uint32_t record; /* in refusals 22 to 26 the number of the bad record, counted from 1 */
    uint32_t sites;  /* how many sites its fixups have together, 0 to 65,535 */
};

/*
 * Prepares the segment of a number, counted from 1: its stored bytes, zeros up to its allocation, and all its fixups done.
 * `selectors` has one for each segment of the module, as many as ne_header says. `answers` has one for each record of
 * this segment, whatever its kind: that of record n, counted from 1, is answers[n - 1], and is read where the record is
 * an import, with the offset in the low word and the selector in the high word. `output` has as many bytes as the
 * allocation, and `marks` as many as are stored. ne_segment gives the number of records, the allocation and the number
 * of stored bytes. Longer ones are fine, and 21 refuses a shorter one.
 *
 * Accepted: `output` has the prepared bytes, and is as it came from the allocation's length on; `marks` has 1 exactly at
 * each byte that lies in a fixup's span and 0 elsewhere, also from the stored length on. Refused: `output` is as it came,
 * and `marks` is 0 over its whole length.
 *
 * `output` and `marks` must overlap neither each other nor any other memory that is lent to the call.
 *
 * Refusals: 1 to 7, then 8, then 12 to 14 for the whole entry table, then 10, 11, 9, 21, then record by record 22, 23, and
 * at each site 24, 25, 26.
 *
 * Stack: under 144 KiB. That is more than some systems give a thread that asks for nothing else, as musl's 128 KiB.
 */
struct ne_prepare_result ne_prepare(const uint8_t *image, size_t image_len, uint32_t number, const uint16_t *selectors,
                                    size_t selectors_len, const uint32_t *answers, size_t answers_len, uint8_t *output,
                                    size_t output_len, uint8_t *marks, size_t marks_len);

/*
 * Does one fixup record in a buffer, as ne_prepare does each of them in the output. Where a segment is accepted by
 * ne_prepare, a buffer of its stored bytes and zeros up to its allocation becomes the prepared bytes by a step for each
 * record, each with its own answer, in any order of the records.
 *
 * `record` points to the record's 8 bytes. The image's header and tables are read for the record's target only; the chain
 * is read from the buffer. From the record's site on, each site is written until a span would pass the buffer, until the
 * chain ends, or until as many sites are written as the buffer has bytes. An OS fixup, a record of another type than 0, 2,
 * 3 or 5, and a target that does not resolve change nothing: with an image that 1 to 7 refuse no target resolves, with an
 * entry table that 12 to 14 refuse no ordinal does, and a segment does not that has no selector in the list.
 *
 * `buffer` must overlap no other memory that is lent to the call, the image included.
 */
void ne_step(const uint8_t *image, size_t image_len, const uint8_t record[8], uint32_t answer, const uint16_t *selectors,
             size_t selectors_len, uint8_t *buffer, size_t buffer_len);

#ifdef __cplusplus
}
#endif

#endif
