/*
 * Prepares one segment of a module and writes its bytes to standard output.
 *
 *     cc -o prepare prepare.c $(pkg-config --cflags --libs ne) && ./prepare FILE SEGMENT >OUT
 *
 * Where segments are loaded and where imported functions are, a loader knows. Here both are made up: segment n is at
 * selector 1000h + 8 (n - 1), and what record n imports is at F000h:n.
 */
#include <ne.h>
#include <stdio.h>
#include <stdlib.h>

/* The most that the format has of each. The image has a byte more, so that a longer file is refused and not cut. */
static uint8_t image[16777216 + 1], output[65536], marks[65536];
static uint16_t selectors[65535];
static uint32_t answers[65535];

static int prepare(size_t length, uint32_t number)
{
    /* What is refused has sizes of 0; ne_prepare then says why. */
    struct ne_header_result header = ne_header(image, length);
    struct ne_segment_result segment = ne_segment(image, length, number);
    struct ne_prepare_result prepared = ne_prepare(image, length, number, selectors, header.segments, answers,
                                                   segment.records, output, segment.allocation, marks, segment.stored);
    if (prepared.refusal != NE_ACCEPTED) {
        fprintf(stderr, "refused %u", (unsigned)prepared.refusal);
        if (prepared.record != 0)
            fprintf(stderr, " at record %u", (unsigned)prepared.record);
        fprintf(stderr, ": %s\n", ne_refusal_text(prepared.refusal));
        return 1;
    }
    fwrite(output, 1, segment.allocation, stdout);
    return fflush(stdout) == 0 ? 0 : 2;
}

int main(int argc, char **argv)
{
    FILE *file = argc == 3 ? fopen(argv[1], "rb") : NULL;
    size_t length = file != NULL ? fread(image, 1, sizeof image, file) : 0;
    unsigned long number = argc == 3 ? strtoul(argv[2], NULL, 10) : 0;
    if (file == NULL || ferror(file) || number > UINT32_MAX) {
        fprintf(stderr, "usage: prepare FILE SEGMENT\n");
        return 2;
    }
    for (uint32_t i = 0; i < 65535; i++) {
        selectors[i] = (uint16_t)(0x1000 + 8 * i);
        answers[i] = 0xF0000000 + i + 1;
    }
    return prepare(length, (uint32_t)number);
}
