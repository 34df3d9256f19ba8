#include "ne.h"
#include <stdio.h>

/* A module of one segment. Its 8 stored bytes stand at 136: 00 00 06 00 AA BB FF FF. One record follows. */
static const uint8_t image[154] = {
    [0] = 'M', 'Z', [60] = 64,               /* the NE header is at 64 */
    [64] = 'N', 'E', [92] = 1, [98] = 64,    /* one segment; its table is 64 behind the NE header, at 128 */
    [128] = 136, 0, 8, 0, 0, 1, 8, 0,        /* stored at 136, 8 bytes, records follow, 8 bytes allocated */
    [138] = 6, 0, 0xAA, 0xBB, 0xFF, 0xFF,    /* the word at 2 says that the next site is at 6; FFFFh ends the chain */
    [144] = 1, 0, 5, 0, 2, 0, 1, 0, 0x34, 0x12 /* one record: offset, chained from 2 on, to segment 1 at 1234h */
};

int main(void)
{
    uint16_t selectors[1] = {0x2000}; /* where segment 1 is loaded */
    uint32_t answers[1] = {0};        /* where an imported function is; this record imports nothing */
    uint8_t output[8], marks[8];
    struct ne_prepare_result p =
        ne_prepare(image, sizeof image, 1, selectors, 1, answers, 1, output, sizeof output, marks, sizeof marks);

    if (p.refusal != NE_ACCEPTED) {
        printf("refused %u at record %u: %s\n", (unsigned)p.refusal, (unsigned)p.record, ne_refusal_text(p.refusal));
        return 1;
    }
    printf("%u sites\n", (unsigned)p.sites);
    for (int i = 0; i < 8; i++)
        printf("%02X%s", output[i], marks[i] ? "*" : " ");
    printf("\n");
    return 0;
}
