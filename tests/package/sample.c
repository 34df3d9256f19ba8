/* Asks everything of the sample driver and writes the answers down: what is numbered, up to the first refusal. */
#include <ne.h>
#include <stdio.h>
#include <string.h>

static uint8_t image[65536];
static size_t length;

static void header(void)
{
    struct ne_header_result h = ne_header(image, length);
    printf("header: refusal %u, at %u, sectors of %u\n", h.refusal, h.header_at, h.unit);
    printf("%u segments at %u, %u modules at %u\n", h.segments, h.segments_at, h.modules, h.modules_at);
    printf("%u bytes of entries at %u\n", h.entries_len, h.entries_at);
    printf("%u bytes of nonresident names at %u\n", h.nonresident_len, h.nonresident_at);
    printf("resident names at %u, imported names at %u\n", h.resident_at, h.imported_at);
    printf("resources at %u\n", h.resources_at);
}

static void segments(void)
{
    struct ne_segment_result s = {0};
    for (uint32_t number = 1; s.refusal == 0; number++) {
        s = ne_segment(image, length, number);
        printf("segment %u: refusal %u, %u stored at %u, ", number, s.refusal, s.stored, s.start);
        printf("flags %04X, allocation %u, %u records\n", s.flags, s.allocation, s.records);
    }
}

static void listing(void)
{
    uint8_t text[200];
    size_t written = ne_list(image, length, text, sizeof text);
    fwrite(text, 1, written < sizeof text ? written : sizeof text, stdout);
}

/* Text that the library has found, and its end. */
static void text(uint32_t at, uint32_t len)
{
    printf("\"%.*s\"", (int)len, (const char *)image + at);
}

static void names(void)
{
    struct ne_name_result n = {0};
    for (uint32_t number = 1; n.refusal == 0; number++) {
        n = ne_name_by_number(image, length, number);
        printf("name %u: refusal %u, ", number, n.refusal);
        text(n.text_at, n.text_len);
        printf(", ordinal %u\n", n.ordinal);
    }
}

static void find(const char *name)
{
    struct ne_name_result n = ne_name_by_bytes(image, length, (const uint8_t *)name, strlen(name));
    struct ne_ordinal_result e = ne_ordinal(image, length, n.ordinal);
    printf("%s: refusal %u, name %u, ordinal %u; ", name, n.refusal, n.number, n.ordinal);
    printf("refusal %u, %u:%04X, flag %02X\n", e.refusal, e.segment, e.offset, e.flag);
}

static void modules(void)
{
    struct ne_module_result m = {0};
    for (uint32_t number = 1; m.refusal == 0; number++) {
        m = ne_module(image, length, number);
        printf("module %u: refusal %u, ", number, m.refusal);
        text(m.text_at, m.text_len);
        printf("\n");
    }
}

static struct ne_resource_result resource(struct ne_resource_result r)
{
    printf("refusal %u, type %04X, id %04X, flags %04X, ", r.refusal, r.type, r.id, r.flags);
    printf("%u bytes at %u\n", r.data_len, r.data_at);
    return r;
}

static void resources(void)
{
    struct ne_resource_result r = {0};
    for (uint32_t number = 1; r.refusal == 0; number++) {
        printf("resource %u: ", number);
        r = resource(ne_resource_by_number(image, length, number));
    }
    printf("800Ah, 8002h: ");
    resource(ne_resource_by_words(image, length, 0x800A, 0x8002));
}

int main(int argc, char **argv)
{
    FILE *file = argc == 2 ? fopen(argv[1], "rb") : NULL;
    if (file == NULL)
        return 2;
    length = fread(image, 1, sizeof image, file);
    header();
    segments();
    listing();
    names();
    find("OPEN");
    find("CALIBRATE");
    find("SCALE");
    find("METER");
    modules();
    resources();
    return 0;
}
