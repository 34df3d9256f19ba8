/* Calls the library through include/ne.h. It compiles as C and as C++. */
#include "ne.h"

#include <stdio.h>
#include <string.h>

#ifdef __cplusplus
#define SAME(a, b) static_assert((a) == (b), #a)
#else
#define SAME(a, b) _Static_assert((a) == (b), #a)
#endif

/* Each field is a 32-bit number, in the documented order, with nothing between them. */
SAME(sizeof(struct ne_header_result), 56);
SAME(offsetof(struct ne_header_result, refusal), 0);
SAME(offsetof(struct ne_header_result, header_at), 4);
SAME(offsetof(struct ne_header_result, unit), 8);
SAME(offsetof(struct ne_header_result, segments_at), 12);
SAME(offsetof(struct ne_header_result, segments), 16);
SAME(offsetof(struct ne_header_result, modules_at), 20);
SAME(offsetof(struct ne_header_result, modules), 24);
SAME(offsetof(struct ne_header_result, entries_at), 28);
SAME(offsetof(struct ne_header_result, entries_len), 32);
SAME(offsetof(struct ne_header_result, nonresident_at), 36);
SAME(offsetof(struct ne_header_result, nonresident_len), 40);
SAME(offsetof(struct ne_header_result, resident_at), 44);
SAME(offsetof(struct ne_header_result, imported_at), 48);
SAME(offsetof(struct ne_header_result, resources_at), 52);

SAME(sizeof(struct ne_segment_result), 24);
SAME(offsetof(struct ne_segment_result, refusal), 0);
SAME(offsetof(struct ne_segment_result, start), 4);
SAME(offsetof(struct ne_segment_result, stored), 8);
SAME(offsetof(struct ne_segment_result, flags), 12);
SAME(offsetof(struct ne_segment_result, allocation), 16);
SAME(offsetof(struct ne_segment_result, records), 20);

SAME(sizeof(struct ne_ordinal_result), 16);
SAME(offsetof(struct ne_ordinal_result, refusal), 0);
SAME(offsetof(struct ne_ordinal_result, segment), 4);
SAME(offsetof(struct ne_ordinal_result, offset), 8);
SAME(offsetof(struct ne_ordinal_result, flag), 12);

SAME(sizeof(struct ne_name_result), 20);
SAME(offsetof(struct ne_name_result, refusal), 0);
SAME(offsetof(struct ne_name_result, number), 4);
SAME(offsetof(struct ne_name_result, text_at), 8);
SAME(offsetof(struct ne_name_result, text_len), 12);
SAME(offsetof(struct ne_name_result, ordinal), 16);

SAME(sizeof(struct ne_module_result), 12);
SAME(offsetof(struct ne_module_result, refusal), 0);
SAME(offsetof(struct ne_module_result, text_at), 4);
SAME(offsetof(struct ne_module_result, text_len), 8);

SAME(sizeof(struct ne_resource_result), 24);
SAME(offsetof(struct ne_resource_result, refusal), 0);
SAME(offsetof(struct ne_resource_result, type), 4);
SAME(offsetof(struct ne_resource_result, id), 8);
SAME(offsetof(struct ne_resource_result, flags), 12);
SAME(offsetof(struct ne_resource_result, data_at), 16);
SAME(offsetof(struct ne_resource_result, data_len), 20);

SAME(sizeof(struct ne_prepare_result), 12);
SAME(offsetof(struct ne_prepare_result, refusal), 0);
SAME(offsetof(struct ne_prepare_result, record), 4);
SAME(offsetof(struct ne_prepare_result, sites), 8);

static int failures = 0;

static void expect(const char *what, uint32_t got, uint32_t wanted)
{
    if (got == wanted)
        return;
    printf("%s: %lu, and not %lu\n", what, (unsigned long)got, (unsigned long)wanted);
    failures++;
}

static void put_word(uint8_t *at, unsigned word)
{
    at[0] = (uint8_t)(word & 255);
    at[1] = (uint8_t)(word >> 8);
}

#define SIZE 300

/* Two null ordinals, a fixed entry and a movable one, ordinals 3 and 4, in segment 1. */
static const uint8_t entry_table[] = {2, 0, 1, 1, 0xa5, 0x34, 0x12, 1, 255, 0x5a, 0xcd, 0x3f, 1, 0x78, 0x56, 0};

/* The resident names: "MOD", and "Alpha" with the ordinal word 1234h. */
static const uint8_t resident[] = "\3MOD\0\0\5Alpha\x34\x12";

/* The nonresident names: "About", and "Omega!" with the ordinal word ABCDh. */
static const uint8_t nonresident[] = "\5About\0\0\6Omega!\xcd\xab";

/* The imported names: an empty string, "GDI" and "KERNEL". The first and last are the modules' strings. */
static const uint8_t imported[] = "\0\3GDI\6KERNEL";
static const uint8_t modules[] = {0, 0, 5, 0};

/* Shift 4, and one resource: offset 3, length 2, flags 0C30h, id 8007h and type 8006h. A block of type 8009h is empty. */
static const uint8_t resource_table[] = {
    4, 0,                                               /* shift */
    9, 0x80, 0, 0, 1, 2, 3, 4,                          /* type, count, reserved */
    6, 0x80, 1, 0, 1, 2, 3, 4,                          /* type, count, reserved */
    3, 0, 2, 0, 0x30, 0x0c, 7, 0x80, 5, 6, 7, 8, 0, 0}; /* offset, length, flags, id, reserved, and the end */

/*
 * A module with the NE header at 64, one segment record at 128 and the segment in sector 9 of 16 bytes. The entry table
 * stands behind the segment's records, at 184; then follow the resident names at 200, the nonresident ones at 220, the
 * modules at 240, the imported names at 244 and the resources at 260.
 */
static void make(uint8_t image[SIZE])
{
    memset(image, 0, SIZE);
    memcpy(image, "MZ", 2);
    image[0x3c] = 64;
    memcpy(image + 64, "NE", 2);
    put_word(image + 64 + 0x04, 184 - 64);
    put_word(image + 64 + 0x06, sizeof entry_table);
    put_word(image + 64 + 0x1c, 1);
    put_word(image + 64 + 0x22, 64);
    put_word(image + 64 + 0x32, 4);
    put_word(image + 128, 9);
    put_word(image + 130, 20);
    put_word(image + 132, 0x0101);
    put_word(image + 134, 0x1234);
    put_word(image + 144 + 20, 2);
    memcpy(image + 184, entry_table, sizeof entry_table);
    put_word(image + 64 + 0x1e, sizeof modules / 2);
    put_word(image + 64 + 0x20, sizeof nonresident);
    put_word(image + 64 + 0x24, 260 - 64);
    put_word(image + 64 + 0x26, 200 - 64);
    put_word(image + 64 + 0x28, 240 - 64);
    put_word(image + 64 + 0x2a, 244 - 64);
    put_word(image + 64 + 0x2c, 220);
    memcpy(image + 200, resident, sizeof resident);
    memcpy(image + 220, nonresident, sizeof nonresident);
    memcpy(image + 240, modules, sizeof modules);
    memcpy(image + 244, imported, sizeof imported);
    memcpy(image + 260, resource_table, sizeof resource_table);
}

/* Every field of an accepted answer has a number of its own, so a field in a wrong place would show. */
static void header_accepted(void)
{
    uint8_t image[SIZE];
    struct ne_header_result r;
    make(image);
    r = ne_header(image, sizeof image);
    expect("refusal of a header", r.refusal, 0);
    expect("place of the header", r.header_at, 64);
    expect("unit", r.unit, 16);
    expect("place of the segments", r.segments_at, 128);
    expect("segments", r.segments, 1);
    expect("place of the modules", r.modules_at, 240);
    expect("modules", r.modules, 2);
    expect("place of the entries", r.entries_at, 184);
    expect("bytes of the entries", r.entries_len, sizeof entry_table);
    expect("place of the nonresident names", r.nonresident_at, 220);
    expect("bytes of the nonresident names", r.nonresident_len, sizeof nonresident);
    expect("place of the resident names", r.resident_at, 200);
    expect("place of the imported names", r.imported_at, 244);
    expect("place of the resources", r.resources_at, 260);
}

static void segment_accepted(void)
{
    uint8_t image[SIZE];
    struct ne_segment_result r;
    make(image);
    r = ne_segment(image, sizeof image, 1);
    expect("refusal", r.refusal, 0);
    expect("start", r.start, 144);
    expect("stored", r.stored, 20);
    expect("flags", r.flags, 0x0101);
    expect("allocation", r.allocation, 0x1234);
    expect("records", r.records, 2);
}

static void ordinal_accepted(void)
{
    uint8_t image[SIZE];
    struct ne_ordinal_result r;
    make(image);
    r = ne_ordinal(image, sizeof image, 3);
    expect("refusal of a fixed entry", r.refusal, 0);
    expect("segment of a fixed entry", r.segment, 1);
    expect("offset of a fixed entry", r.offset, 0x1234);
    expect("flag of a fixed entry", r.flag, 0xa5);
    r = ne_ordinal(image, sizeof image, 4);
    expect("refusal of a movable entry", r.refusal, 0);
    expect("segment of a movable entry", r.segment, 1);
    expect("offset of a movable entry", r.offset, 0x5678);
    expect("flag of a movable entry", r.flag, 0x5a);
}

static void header_refused(const char *what, const uint8_t *image, size_t len, uint32_t refusal)
{
    struct ne_header_result r = ne_header(image, len);
    expect(what, r.refusal, refusal);
    expect(what, r.header_at | r.unit | r.segments_at | r.segments | r.modules_at | r.modules, 0);
    expect(what, r.entries_at | r.entries_len | r.nonresident_at | r.nonresident_len, 0);
    expect(what, r.resident_at | r.imported_at | r.resources_at, 0);
}

static void segment_refused(const char *what, const uint8_t *image, size_t len, uint32_t number, uint32_t refusal)
{
    struct ne_segment_result r = ne_segment(image, len, number);
    expect(what, r.refusal, refusal);
    expect(what, r.start | r.stored | r.flags | r.allocation | r.records, 0);
}

static void ordinal_refused(const char *what, const uint8_t *image, size_t len, uint32_t number, uint32_t refusal)
{
    struct ne_ordinal_result r = ne_ordinal(image, len, number);
    expect(what, r.refusal, refusal);
    expect(what, r.segment | r.offset | r.flag, 0);
}

static void headers(void)
{
    uint8_t image[SIZE];
    make(image);
    header_accepted();
    header_refused("the header of an empty image", NULL, 0, 1);
    header_refused("a header that is cut", image, 127, 4);
    image[64] = 'P';
    header_refused("no NE", image, sizeof image, 5);
}

static void segments(void)
{
    uint8_t image[SIZE];
    make(image);
    segment_accepted();
    segment_refused("an empty image", NULL, 0, 1, 1);
    segment_refused("segment 0", image, sizeof image, 0, 8);
    segment_refused("segment 2 of 1", image, sizeof image, 2, 8);
    segment_refused("the largest number", image, sizeof image, UINT32_MAX, 8);
    /* Without the tables behind them the image may be cut in the segment's two records. */
    put_word(image + 64 + 0x06, 0);
    put_word(image + 64 + 0x1e, 0);
    put_word(image + 64 + 0x20, 0);
    segment_refused("a record list that is cut", image, 144 + 20 + 2 + 15, 1, 9);
}

static void ordinals(void)
{
    uint8_t image[SIZE];
    make(image);
    ordinal_accepted();
    ordinal_refused("ordinals of an empty image", NULL, 0, 1, 1);
    ordinal_refused("ordinal 0", image, sizeof image, 0, 15);
    ordinal_refused("a null ordinal", image, sizeof image, 2, 15);
    ordinal_refused("ordinal 5 of 4", image, sizeof image, 5, 15);
    ordinal_refused("the largest ordinal", image, sizeof image, UINT32_MAX, 15);
    image[184 + 3] = 2;
    ordinal_refused("an entry in segment 2 of 1", image, sizeof image, 4, 13);
    put_word(image + 64 + 0x06, 6);
    ordinal_refused("an entry table that is cut", image, sizeof image, 3, 12);
}

/* How many bytes aren't this one. */
static uint32_t others(const uint8_t *bytes, size_t len, uint8_t byte)
{
    uint32_t count = 0;
    size_t i;
    for (i = 0; i < len; i++)
        count += bytes[i] != byte;
    return count;
}

/* The listing is these lines, in this much room. */
static void listed(const char *what, const uint8_t *image, size_t len, size_t room, const char *lines)
{
    uint8_t text[100];
    size_t fits = room < strlen(lines) ? room : strlen(lines);
    memset(text, 0xa5, sizeof text);
    expect(what, (uint32_t)ne_list(image, len, text, room), (uint32_t)strlen(lines));
    expect(what, (uint32_t)memcmp(text, lines, fits), 0);
    expect(what, others(text + fits, sizeof text - fits, 0xa5), 0);
}

static void listings(void)
{
    static const char lines[] = "ordinals 4\n3 1:1234 A5\n4 1:5678 5A\nend\n";
    uint8_t image[SIZE];
    make(image);
    listed("a listing with more room", image, sizeof image, 100, lines);
    listed("a listing in its own length", image, sizeof image, sizeof lines - 1, lines);
    listed("a listing that is cut", image, sizeof image, sizeof lines - 2, lines);
    listed("a listing without room", image, sizeof image, 0, lines);
    expect("a listing in no room at no place", (uint32_t)ne_list(image, sizeof image, NULL, 0), sizeof lines - 1);
    listed("the listing of an empty image", NULL, 0, 100, "refused 1\n");
    image[184 + 3] = 2;
    listed("the listing of an entry in segment 2 of 1", image, sizeof image, 100, "refused 13\n");
}

static void name_accepted(const char *what, struct ne_name_result r, uint32_t number, uint32_t text_at, uint32_t text_len,
                          uint32_t ordinal)
{
    expect(what, r.refusal, 0);
    expect(what, r.number, number);
    expect(what, r.text_at, text_at);
    expect(what, r.text_len, text_len);
    expect(what, r.ordinal, ordinal);
}

static void name_refused(const char *what, struct ne_name_result r, uint32_t refusal)
{
    expect(what, r.refusal, refusal);
    expect(what, r.number | r.text_at | r.text_len | r.ordinal, 0);
}

static void names_by_number(void)
{
    uint8_t image[SIZE];
    make(image);
    name_accepted("the first name", ne_name_by_number(image, sizeof image, 1), 1, 201, 3, 0);
    name_accepted("the second name", ne_name_by_number(image, sizeof image, 2), 2, 207, 5, 0x1234);
    name_accepted("the fourth name", ne_name_by_number(image, sizeof image, 4), 4, 229, 6, 0xabcd);
    name_refused("names of an empty image", ne_name_by_number(NULL, 0, 1), 1);
    name_refused("name 0", ne_name_by_number(image, sizeof image, 0), 8);
    name_refused("name 5 of 4", ne_name_by_number(image, sizeof image, 5), 8);
    name_refused("the largest name", ne_name_by_number(image, sizeof image, UINT32_MAX), 8);
    put_word(image + 64 + 0x20, sizeof nonresident - 1);
    name_refused("a name list that is cut", ne_name_by_number(image, sizeof image, 1), 16);
}

static struct ne_name_result find(const uint8_t *image, const char *name)
{
    return ne_name_by_bytes(image, SIZE, (const uint8_t *)name, strlen(name));
}

static void names_by_bytes(void)
{
    uint8_t image[SIZE];
    make(image);
    name_accepted("Alpha", find(image, "Alpha"), 2, 207, 5, 0x1234);
    name_accepted("Omega!", find(image, "Omega!"), 4, 229, 6, 0xabcd);
    name_accepted("Omega! without an end", ne_name_by_bytes(image, sizeof image, image + 229, 6), 4, 229, 6, 0xabcd);
    name_refused("a name in an empty image", ne_name_by_bytes(NULL, 0, image, 1), 1);
    name_refused("alpha", find(image, "alpha"), 17);
    name_refused("a first string", find(image, "MOD"), 17);
    name_refused("a name cut short", find(image, "Omega"), 17);
    name_refused("no bytes", find(image, ""), 17);
    name_refused("no bytes at no place", ne_name_by_bytes(image, sizeof image, NULL, 0), 17);
    name_refused("a whole image as a name", ne_name_by_bytes(image, sizeof image, image, sizeof image), 17);
    put_word(image + 64 + 0x26, 0xffff);
    name_refused("a name list outside", find(image, "Alpha"), 16);
}

static void module_refused(const char *what, struct ne_module_result r, uint32_t refusal)
{
    expect(what, r.refusal, refusal);
    expect(what, r.text_at | r.text_len, 0);
}

static void module_names(void)
{
    uint8_t image[SIZE];
    struct ne_module_result r;
    make(image);
    r = ne_module(image, sizeof image, 2);
    expect("refusal of a module", r.refusal, 0);
    expect("text of a module", r.text_at, 250);
    expect("length of a module", r.text_len, 6);
    module_refused("modules of an empty image", ne_module(NULL, 0, 1), 1);
    module_refused("a module with an empty string", ne_module(image, sizeof image, 1), 16);
    module_refused("module 0", ne_module(image, sizeof image, 0), 8);
    module_refused("module 3 of 2", ne_module(image, sizeof image, 3), 8);
    module_refused("the largest module", ne_module(image, sizeof image, UINT32_MAX), 8);
}

static void resource_accepted(const char *what, struct ne_resource_result r)
{
    expect(what, r.refusal, 0);
    expect(what, r.type, 0x8006);
    expect(what, r.id, 0x8007);
    expect(what, r.flags, 0x0c30);
    expect(what, r.data_at, 48);
    expect(what, r.data_len, 32);
}

static void resource_refused(const char *what, struct ne_resource_result r, uint32_t refusal)
{
    expect(what, r.refusal, refusal);
    expect(what, r.type | r.id | r.flags | r.data_at | r.data_len, 0);
}

static void resources(void)
{
    uint8_t image[SIZE];
    make(image);
    resource_accepted("resource 1", ne_resource_by_number(image, sizeof image, 1));
    resource_accepted("resource 8006h, 8007h", ne_resource_by_words(image, sizeof image, 0x8006, 0x8007));
    resource_refused("resources of an empty image", ne_resource_by_number(NULL, 0, 1), 1);
    resource_refused("words in an empty image", ne_resource_by_words(NULL, 0, 0x8006, 0x8007), 1);
    resource_refused("resource 0", ne_resource_by_number(image, sizeof image, 0), 8);
    resource_refused("resource 2 of 1", ne_resource_by_number(image, sizeof image, 2), 8);
    resource_refused("the largest resource", ne_resource_by_number(image, sizeof image, UINT32_MAX), 8);
    resource_refused("id before type", ne_resource_by_words(image, sizeof image, 0x8007, 0x8006), 19);
    resource_refused("a type without its bit", ne_resource_by_words(image, sizeof image, 0x0006, 0x8007), 19);
    resource_refused("a type over 16 bits", ne_resource_by_words(image, sizeof image, 0x18006, 0x8007), 19);
    resource_refused("an id over 16 bits", ne_resource_by_words(image, sizeof image, 0x8006, 0x18007), 19);
    put_word(image + 260 + 18, 0xffff);
    resource_refused("data of a number outside", ne_resource_by_number(image, sizeof image, 1), 20);
    resource_refused("data of words outside", ne_resource_by_words(image, sizeof image, 0x8006, 0x8007), 20);
    put_word(image + 260, 16);
    resource_refused("a number with shift 16", ne_resource_by_number(image, sizeof image, 1), 18);
    resource_refused("words with shift 16", ne_resource_by_words(image, sizeof image, 0x8006, 0x8007), 18);
}

/* Two fixups: a chain of far pointers at 0 and 8 to ordinal 3, and an additive offset at 14 to import 2 of module 1. */
static const uint8_t fixups[2][8] = {{3, 0, 0, 0, 255, 0, 3, 0}, {5, 5, 14, 0, 1, 0, 2, 0}};

/* The stored bytes: the chain's words at 0 and 8, and at 14 the word FFFEh. */
static const uint8_t stored[20] = {8, 0, 1, 1, 2, 2, 2, 2, 0xff, 0xff, 3, 3, 4, 4, 0xfe, 0xff, 5, 5, 6, 6};

/* What becomes of them with selector 2345h for segment 1, and 6789h:0003h for the import. */
static const uint8_t done[24] = {0x34, 0x12, 0x45, 0x23, 2, 2, 2, 2, 0x34, 0x12, 0x45, 0x23,
                                 4,    4,    1,    0,    5, 5, 6, 6, 0,    0,    0,    0};
static const uint8_t marked[20] = {1, 1, 1, 1, 0, 0, 0, 0, 1, 1, 1, 1, 0, 0, 1, 1, 0, 0, 0, 0};

static const uint16_t selectors[] = {0x2345};
static const uint32_t answers[] = {0xdeadbeef, 0x67890003};

/* The module above, with these in its segment and an allocation of 24 bytes. */
static void make_fixups(uint8_t image[SIZE])
{
    make(image);
    put_word(image + 134, 24);
    memcpy(image + 144, stored, sizeof stored);
    memcpy(image + 144 + 20 + 2, fixups, sizeof fixups);
}

/* Lent room with something in it, longer than it need be. */
struct room {
    uint8_t output[30];
    uint8_t marks[25];
};

static struct ne_prepare_result prepare(const uint8_t *image, size_t len, uint32_t number, struct room *room)
{
    memset(room->output, 0xa5, sizeof room->output);
    memset(room->marks, 0x5a, sizeof room->marks);
    return ne_prepare(image, len, number, selectors, 1, answers, 2, room->output, sizeof room->output, room->marks,
                      sizeof room->marks);
}

static void prepared_accepted(void)
{
    uint8_t image[SIZE];
    struct room room;
    struct ne_prepare_result r;
    make_fixups(image);
    r = prepare(image, sizeof image, 1, &room);
    expect("refusal of preparing", r.refusal, 0);
    expect("record of preparing", r.record, 0);
    expect("sites of preparing", r.sites, 3);
    expect("prepared bytes", (uint32_t)memcmp(room.output, done, sizeof done), 0);
    expect("output past the allocation", others(room.output + 24, 6, 0xa5), 0);
    expect("marks", (uint32_t)memcmp(room.marks, marked, sizeof marked), 0);
    expect("marks past the stored bytes", others(room.marks + 20, 5, 0), 0);
}

static void prepared_refused(const char *what, const uint8_t *image, size_t len, uint32_t number, uint32_t refusal,
                             uint32_t record)
{
    struct room room;
    struct ne_prepare_result r = prepare(image, len, number, &room);
    expect(what, r.refusal, refusal);
    expect(what, r.record, record);
    expect(what, r.sites, 0);
    expect(what, others(room.output, sizeof room.output, 0xa5), 0);
    expect(what, others(room.marks, sizeof room.marks, 0), 0);
}

static void prepared_records(void)
{
    uint8_t image[SIZE];
    uint8_t *second = image + 144 + 20 + 2 + 8;
    make_fixups(image);
    second[2] = 9;
    prepared_refused("a span that meets another", image, sizeof image, 1, 25, 2);
    second[2] = 19;
    prepared_refused("a span outside", image, sizeof image, 1, 24, 2);
    second[4] = 3;
    prepared_refused("module 3 of 2", image, sizeof image, 1, 23, 2);
    second[0] = 4;
    prepared_refused("a fixup of type 4", image, sizeof image, 1, 22, 2);
    put_word(image + 128, 0xffff);
    prepared_refused("stored bytes outside", image, sizeof image, 1, 9, 0);
}

static void preparing(void)
{
    uint8_t image[SIZE];
    struct room room;
    struct ne_prepare_result r;
    make_fixups(image);
    prepared_accepted();
    prepared_records();
    prepared_refused("preparing in an empty image", NULL, 0, 1, 1, 0);
    prepared_refused("preparing segment 0", image, sizeof image, 0, 8, 0);
    prepared_refused("preparing segment 2 of 1", image, sizeof image, 2, 8, 0);
    memset(room.marks, 0x5a, sizeof room.marks);
    r = ne_prepare(image, sizeof image, 1, NULL, 0, NULL, 0, NULL, 0, room.marks, sizeof room.marks);
    expect("no lists", r.refusal, 21);
    expect("marks with no lists", others(room.marks, sizeof room.marks, 0), 0);
    r = ne_prepare(image, sizeof image, 1, selectors, 1, answers, 2, room.output, 24, NULL, 0);
    expect("no marks", r.refusal, 21);
    r = ne_prepare(image, sizeof image, 1, selectors, 1, answers, 2, room.output, 24, room.marks, 20);
    expect("lists of the exact lengths", r.refusal, 0);
}

/* The two steps, in this order. */
static void step_both(const char *what, int first, int second)
{
    uint8_t image[SIZE];
    uint8_t buffer[24] = {0};
    make_fixups(image);
    memcpy(buffer, stored, sizeof stored);
    ne_step(image, sizeof image, fixups[first], answers[first], selectors, 1, buffer, sizeof buffer);
    ne_step(image, sizeof image, fixups[second], answers[second], selectors, 1, buffer, sizeof buffer);
    expect(what, (uint32_t)memcmp(buffer, done, sizeof done), 0);
}

static void steps(void)
{
    uint8_t image[SIZE];
    uint8_t buffer[4] = {0xff, 0xff, 0xff, 0xff};
    make_fixups(image);
    step_both("steps in file order", 0, 1);
    step_both("steps in the other order", 1, 0);
    ne_step(NULL, 0, fixups[0], 0, selectors, 1, buffer, sizeof buffer);
    expect("a step in an empty image", others(buffer, sizeof buffer, 0xff), 0);
    ne_step(image, sizeof image, fixups[0], 0, NULL, 0, buffer, sizeof buffer);
    expect("a step without selectors", others(buffer, sizeof buffer, 0xff), 0);
    ne_step(image, sizeof image, fixups[0], 0, selectors, 1, NULL, 0);
    ne_step(image, sizeof image, fixups[0], 0, selectors, 1, buffer, 3);
    expect("a step in 3 bytes", others(buffer, sizeof buffer, 0xff), 0);
    ne_step(image, sizeof image, fixups[0], 0, selectors, 1, buffer, 4);
    expect("a step in 4 bytes", others(buffer, sizeof buffer, 0xff), 4);
}

/* What is refused has its name in the header. */
static void refusals(void)
{
    uint8_t image[SIZE];
    struct room room;
    make_fixups(image);
    expect("accepted, by name", ne_header(image, sizeof image).refusal, NE_ACCEPTED);
    expect("1 by name", ne_header(image, 63).refusal, NE_REFUSED_IMAGE_TOO_SHORT);
    expect("4 by name", ne_header(image, 127).refusal, NE_REFUSED_HEADER_OUTSIDE);
    expect("8 by name", ne_segment(image, sizeof image, 2).refusal, NE_REFUSED_NO_SUCH_NUMBER);
    expect("15 by name", ne_ordinal(image, sizeof image, 2).refusal, NE_REFUSED_NO_SUCH_ORDINAL);
    expect("16 by name", ne_module(image, sizeof image, 1).refusal, NE_REFUSED_BAD_NAMES);
    expect("17 by name", find(image, "alpha").refusal, NE_REFUSED_NO_SUCH_NAME);
    expect("19 by name", ne_resource_by_words(image, sizeof image, 0, 0).refusal, NE_REFUSED_NO_SUCH_RESOURCE);
    image[144 + 20 + 2 + 8 + 2] = 9;
    expect("25 by name", prepare(image, sizeof image, 1, &room).refusal, NE_REFUSED_SPANS_MEET);
    image[64] = 'P';
    expect("5 by name", ne_header(image, sizeof image).refusal, NE_REFUSED_NO_NE);
}

static void text_is(const char *what, uint32_t number, const char *text)
{
    expect(what, (uint32_t)(strcmp(ne_refusal_text(number), text) != 0), 0);
}

/* The texts of the refusals themselves are compared with their table by tests/c/run. */
static void texts(void)
{
    text_is("text of no refusal", 0, "accepted");
    text_is("text of a number that no refusal has", 1000000, "unknown refusal");
    text_is("text of the largest number", UINT32_MAX, "unknown refusal");
}

#define TEXT(number) #number
#define JOINED(major, minor, patch) TEXT(major) "." TEXT(minor) "." TEXT(patch)

static void version(void)
{
    const char *joined = JOINED(NE_VERSION_MAJOR, NE_VERSION_MINOR, NE_VERSION_PATCH);
    expect("the version and its numbers", (uint32_t)(strcmp(NE_VERSION, joined) != 0), 0);
}

int main(void)
{
    headers();
    segments();
    ordinals();
    listings();
    names_by_number();
    names_by_bytes();
    module_names();
    resources();
    preparing();
    steps();
    refusals();
    texts();
    version();
    return failures != 0;
}
