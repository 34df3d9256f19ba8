/*
 * Measures the stack that ne_prepare uses, against what include/ne.h says of it. The call is made in a thread whose stack is
 * filled with one byte before; what isn't that byte afterwards was used.
 */
#define _GNU_SOURCE
#include "ne.h"

#include <pthread.h>
#include <stdio.h>
#include <stdlib.h>
#include <string.h>
#include <sys/mman.h>

/* What the header says. */
#define STATED (144u * 1024u)

#define STACK (1024u * 1024u)
#define PAINT 0xa5
#define WHOLE 65536u
#define RECORDS 65535u
#define IMAGE (1024 + WHOLE + 2 + 8 * RECORDS)
#define LIST (512 + WHOLE)

static uint8_t image[IMAGE], output[WHOLE], marks[WHOLE];
static uint16_t selectors[2];
static uint32_t answers[RECORDS];
static struct ne_prepare_result result;

static void put_word(uint8_t *at, unsigned word)
{
    at[0] = (uint8_t)(word & 255);
    at[1] = (uint8_t)(word >> 8);
}

/*
 * Two segments, an entry table with a fixed and a movable entry, one module and an imported name; the first segment has
 * 65,536 bytes at 512 and 65,535 records behind them. Each record is an additive low byte at its own site. They are
 * internal, by ordinal, imports by ordinal and by name in turn, and OS fixups.
 */
static void make(void)
{
    static const uint8_t entries[] = {1, 1, 1, 0x10, 0, 1, 255, 3, 0xcd, 0x3f, 2, 0x20, 0, 0};
    static const uint8_t targets[5][5] = {
        {4, 2, 0, 9, 9}, {4, 255, 0, 2, 0}, {5, 1, 0, 7, 7}, {6, 1, 0, 0, 0}, {3, 0, 0, 0, 0}};
    unsigned i;
    memcpy(image, "MZ", 2);
    image[0x3c] = 64;
    memcpy(image + 64, "NE", 2);
    put_word(image + 64 + 0x04, 100);
    put_word(image + 64 + 0x06, sizeof entries);
    put_word(image + 64 + 0x1c, 2);
    put_word(image + 64 + 0x1e, 1);
    put_word(image + 64 + 0x22, 64);
    put_word(image + 64 + 0x28, 120);
    put_word(image + 64 + 0x2a, 130);
    put_word(image + 64 + 0x32, 9);
    put_word(image + 128, 1);
    put_word(image + 132, 0x0100);
    memcpy(image + 164, entries, sizeof entries);
    memcpy(image + 64 + 130, "\3GDI", 4);
    put_word(image + LIST, RECORDS);
    for (i = 0; i < RECORDS; i++) {
        uint8_t *record = image + LIST + 2 + 8 * i;
        const uint8_t *target = targets[i % 5];
        record[0] = 0;
        record[1] = target[0];
        put_word(record + 2, i);
        memcpy(record + 4, target + 1, 4);
    }
}

static void *prepare(void *unused)
{
    result = ne_prepare(image, sizeof image, 1, selectors, 2, answers, RECORDS, output, sizeof output, marks, sizeof marks);
    return unused;
}

/* The same, with a stack use that is known to be more than is stated. */
static void *prepare_and_more(void *unused)
{
    volatile uint8_t more[STATED];
    unsigned i;
    for (i = 0; i < STATED; i++)
        more[i] = 1;
    unused = prepare(unused);
    return more[0] == 1 ? unused : NULL;
}

static void *nothing(void *unused)
{
    return unused;
}

/* The bytes of its stack that a thread has used, or 0 if it can't be made. */
static size_t used(void *(*function)(void *))
{
    pthread_attr_t attributes;
    pthread_t thread;
    size_t unused = 0;
    uint8_t *stack = (uint8_t *)mmap(NULL, STACK, PROT_READ | PROT_WRITE, MAP_PRIVATE | MAP_ANONYMOUS, -1, 0);
    if (stack == MAP_FAILED)
        return 0;
    memset(stack, PAINT, STACK);
    if (pthread_attr_init(&attributes) != 0 || pthread_attr_setstack(&attributes, stack, STACK) != 0 ||
        pthread_create(&thread, &attributes, function, NULL) != 0 || pthread_join(thread, NULL) != 0)
        return 0;
    while (unused < STACK && stack[unused] == PAINT)
        unused++;
    munmap(stack, STACK);
    return STACK - unused;
}

/* Beyond what a thread that does nothing uses. */
static size_t measured(void *(*function)(void *))
{
    size_t base = used(nothing), all = used(function);
    if (base == 0 || all < base) {
        printf("no stack could be measured\n");
        exit(1);
    }
    return all - base;
}

static int under(const char *what, size_t stack, int expected)
{
    int held = (stack < STATED) == expected;
    printf("%s: %lu bytes of stack, and %u are stated%s\n", what, (unsigned long)stack, STATED, held ? "" : ": FAILED");
    return held;
}

static int gave(uint32_t refusal, uint32_t record, uint32_t sites)
{
    int held = result.refusal == refusal && result.record == record && result.sites == sites;
    if (!held)
        printf("refusal %lu, record %lu, %lu sites: FAILED\n", (unsigned long)result.refusal, (unsigned long)result.record,
               (unsigned long)result.sites);
    return held;
}

int main(void)
{
    int held;
    make();
    held = under("65,535 records", measured(prepare), 1);
    held &= gave(0, 0, RECORDS / 5 * 4);
    /* The last but one meets the first, and all is refused. */
    put_word(image + LIST + 2 + 8 * (RECORDS - 2) + 2, 0);
    held &= under("65,533 records and a bad one", measured(prepare), 1);
    held &= gave(25, RECORDS - 1, 0);
    /* One chain through all bytes. */
    put_word(image + LIST, 1);
    image[LIST + 2] = 5;
    image[LIST + 3] = 0;
    for (unsigned i = 0; i < WHOLE; i += 2)
        put_word(image + 512 + i, i + 2 < WHOLE ? i + 2 : 0xffff);
    held &= under("32,768 sites", measured(prepare), 1);
    held &= gave(0, 0, WHOLE / 2);
    held &= under("this test, with more stack than that", measured(prepare_and_more), 0);
    return !held;
}
