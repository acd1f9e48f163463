/* The Friday port (docs/FRIDAY.md): its sheet is written from its numbers, and one with a slip is refused. Then: why are dbg_tx and bus_out exempt from
 * timing, what without the wildcard, and can the sheet be met at all? Last the Monday sheet, on which two rules contradict each other. */
#include "bargaindune.h"

#include <stdio.h>
#include <stdlib.h>
#include <string.h>

/* The sheet has one some line and no only line, so that one record suffices. */
enum { RECORDS = 1, SLOTS = 4, WORDS = 16, RULES = 5, EXEMPT = 2, SCAN = 4 };

/* The kinds of lines that the sheets have. */
enum { NAME = 2, NOT = 3, SOME = 6 };

static const uint16_t friday_numbers[] = {
    5,          /* lines: */
    NAME, 0,    /* 0, matches dbg_* */
    NAME, 1,    /* 1, test-side */
    NAME, 2,    /* 2, exempt */
    SOME, 0, 1, /* 3, drives something test-side */
    NAME, 3,    /* 4, boundary scan */
    4,          /* rules: */
    0, 1,       /* what matches dbg_* is test-side */
    1, 2,       /* what is test-side is exempt */
    3, 1,       /* what drives something test-side is test-side */
    4, 2,       /* boundary scan is exempt */
    2,          /* ports: dbg_tx, bus_out */
    1, 0, 0,    /* dbg_tx matches dbg_* */
    1, 0, 1, 0, /* bus_out drives dbg_tx */
};

/* What they have to come to in bytes, laid out by hand. */
static const uint8_t friday[] = {
    0x05, 0x02, 0x00, 0x02, 0x01, 0x02, 0x02, 0x06, 0x00, 0x01, 0x02, 0x03,
    0x04, 0x00, 0x01, 0x01, 0x02, 0x03, 0x01, 0x04, 0x02,
    0x02,
    0x01, 0x00, 0x00,
    0x01, 0x00, 0x01, 0x00,
};

/* The same without rule 0. */
static const uint16_t no_wildcard_numbers[] = {
    5, NAME, 0, NAME, 1, NAME, 2, SOME, 0, 1, NAME, 3,
    3, 1, 2, 3, 1, 4, 2,
    2,
    1, 0, 0,
    1, 0, 1, 0,
};

/* The Monday sheet: dbg_tx carries traffic, and by rule 4 what carries traffic is not test-side. */
static const uint16_t monday_numbers[] = {
    7, NAME, 0, NAME, 1, NAME, 2, SOME, 0, 1, NAME, 3,
    NAME, 4,    /* 5, carries traffic */
    NOT, 1,     /* 6, not test-side */
    5, 0, 1, 1, 2, 3, 1, 4, 2,
    5, 6,       /* what carries traffic is not test-side */
    2,
    2, 0, 0, 0, 5,
    1, 0, 1, 0,
};

/* The Friday port with a slip: rule 0 is struck out, but not counted out. Its last rule is then made of what should be the ports. */
static const uint16_t miscounted_numbers[] = {
    5, NAME, 0, NAME, 1, NAME, 2, SOME, 0, 1, NAME, 3,
    4, 1, 2, 3, 1, 4, 2,
    2,
    1, 0, 0,
    1, 0, 1, 0,
};

#define COUNT(numbers) (sizeof numbers / sizeof *numbers)

static const char *const faults[] = {
    [BARGAINDUNE_CUT] = "the numbers end too early",
    [BARGAINDUNE_BADLY_FORMED] = "a number of 16,384 or more",
    [BARGAINDUNE_OVER_LIMIT] = "a count over its limit",
    [BARGAINDUNE_TOO_LARGE] = "a kind, name or role too large",
    [BARGAINDUNE_NOT_THERE] = "a line or individual that may not be named there",
    [BARGAINDUNE_LEFT_OVER] = "numbers left over",
};

static const char *const rules[RULES] = {
    "whatever matches dbg_* is test-side",
    "what is test-side is exempt",
    "what drives something test-side is test-side",
    "boundary scan is exempt",
    "what carries traffic is not test-side",
};

static const char *const classes[] = {"matched by dbg_*", "test-side", "exempt", "driving something test-side", "boundary scan"};

static const char *const ports[] = {"dbg_tx", "bus_out"};

static const char *const names[] = {"matches dbg_*", "test-side", "exempt", "boundary scan"};

/* Every other answer is a fault of this program: its sheets are in order and its buffers suffice. */
static void stop(uint64_t number, uint64_t carried)
{
    fprintf(stderr, "unexpected answer %llu, carrying %llu\n", (unsigned long long)number, (unsigned long long)carried);
    exit(1);
}

/* Writes the sheet of these numbers, and hands back its length. */
static size_t write_sheet(const uint16_t *numbers, size_t count, uint8_t sheet[BARGAINDUNE_MOST_SHEET])
{
    uint64_t carried, number;

    number = bargaindune_write(numbers, count, sheet, BARGAINDUNE_MOST_SHEET, &carried);
    if (number != BARGAINDUNE_WRITTEN)
        stop(number, carried);
    return (size_t)carried;
}

/* A buffer of no bytes is told the length wanted, or what is wrong. */
static void judge_numbers(const uint16_t *numbers, size_t count)
{
    uint8_t nothing;
    uint64_t carried, number;

    number = bargaindune_write(numbers, count, &nothing, 0, &carried);
    if (number == BARGAINDUNE_SHORT_BUFFER)
        printf("they make a sheet of %llu bytes.\n", (unsigned long long)carried);
    else if (number >= BARGAINDUNE_CUT && number <= BARGAINDUNE_LEFT_OVER)
        printf("they make no sheet: %s, at byte %llu.\n", faults[number], (unsigned long long)carried);
    else
        stop(number, carried);
}

/* A sheet that leaves out the first rules numbers the others from 0 on. A marked set says nothing about the port: its rules have to be mended first. */
static void why(const uint8_t *sheet, size_t length, unsigned left_out, unsigned port, unsigned class_line)
{
    uint64_t records[RECORDS], carried, number;
    uint8_t marks[RECORDS];
    uint16_t list[SLOTS];

    number = bargaindune_causes(sheet, length, port, class_line, records, RECORDS, marks, RECORDS, list, SLOTS, &carried);
    if (number != BARGAINDUNE_CAUSES)
        stop(number, carried);
    if (carried == 0) {
        printf("%s need not be %s.\n", ports[port], classes[class_line]);
        return;
    }
    for (uint64_t i = 0; i < carried; i++) {
        if (BARGAINDUNE_IS_CONTRADICTORY(list[i]))
            printf("Whatever is asked, with what is asserted these cannot all stand:\n");
        else
            printf("%s is %s because\n", ports[port], classes[class_line]);
        for (unsigned n = 0; n + left_out < RULES; n++)
            if (BARGAINDUNE_RULES(list[i]) >> n & 1)
                printf("  %s\n", rules[n + left_out]);
    }
}

static void meet(const uint8_t *sheet, size_t length)
{
    uint64_t records[RECORDS], carried, number;
    uint8_t marks[RECORDS];
    uint32_t model[WORDS];

    number = bargaindune_satisfy(sheet, length, records, RECORDS, marks, RECORDS, model, WORDS, &carried);
    if (number != BARGAINDUNE_MODEL)
        stop(number, carried);
    printf("The sheet can be met, by a model of %llu words:\n", (unsigned long long)carried);
    const uint32_t elements = model[0];
    for (uint32_t a = 0; a < elements; a++) {
        printf("  element %u:", a);
        for (unsigned n = 0; n < 4; n++)
            if (model[1 + a] >> n & 1)
                printf(" [%s]", names[n]);
        printf("\n");
    }
    const uint32_t *const edges = model + 1 + elements;
    for (uint32_t i = 0; i < edges[0]; i++)
        printf("  element %u drives element %u\n", edges[1 + 3 * i], edges[3 + 3 * i]);
}

static void room_for(const uint8_t *sheet, size_t length)
{
    uint64_t carried, number;
    int64_t left;

    number = bargaindune_balance(sheet, length, RECORDS, &carried, &left);
    if (number != BARGAINDUNE_LEFT)
        stop(number, carried);
    printf("Of %d records at least %lld are left.\n", RECORDS, (long long)left);
}

int main(void)
{
    uint8_t sheet[BARGAINDUNE_MOST_SHEET], without[BARGAINDUNE_MOST_SHEET], monday[BARGAINDUNE_MOST_SHEET];

    printf("The numbers of the Friday port: ");
    judge_numbers(friday_numbers, COUNT(friday_numbers));
    printf("The same with rule 0 struck out but still counted: ");
    judge_numbers(miscounted_numbers, COUNT(miscounted_numbers));

    const size_t length = write_sheet(friday_numbers, COUNT(friday_numbers), sheet);
    const size_t shorter = write_sheet(no_wildcard_numbers, COUNT(no_wildcard_numbers), without);
    if (length != sizeof friday || memcmp(sheet, friday, length) != 0) {
        fprintf(stderr, "not the sheet that was laid out by hand\n");
        return 1;
    }
    printf("Written, it is the sheet that was laid out by hand.\n");

    why(sheet, length, 0, 0, EXEMPT);
    why(sheet, length, 0, 1, EXEMPT);
    printf("Without the wildcard:\n");
    why(without, shorter, 1, 0, EXEMPT);
    meet(sheet, length);
    room_for(sheet, length);

    printf("On Monday, with a rule more:\n");
    const size_t longer = write_sheet(monday_numbers, COUNT(monday_numbers), monday);
    why(monday, longer, 0, 0, EXEMPT);
    printf("And asked for another class:\n");
    why(monday, longer, 0, 0, SCAN);
    return 0;
}
