/* Arbitrary bytes, numbers and lengths through the exported functions: `fuzz SECONDS SEED FIRST` asks the questions of a seed, from the FIRST on.
 * SECONDS is 1 to 1,000,000, the others have 64 bits; anything else is refused, and so is a run in which nothing was asked.
 *
 * Each question is put three times, over different entry contents:
 * - each buffer malloc'ed exactly as long as lent;
 * - all buffers in one block with guard bytes around each;
 * - each buffer with its front or its end at a page that cannot be read or written, and guard bytes on the other side.
 * After each call nothing but the buffers may have changed, the buffers have to hold what docs/FORMAT.md says, and the three answers have
 * to agree. Refusals and the balance are compared with a reader of this file's own, and what is written with a writer of its own. The marks of causes
 * are compared with what the engine says about the sheet with these rules alone.
 *
 * This program is built with the address sanitizer. The archive is not, since no compiler of C sees its source: what it does outside the
 * buffers shows in the guard bytes, or ends the program at a guard page.
 */
#define _DEFAULT_SOURCE
#include "bargaindune.h"

#include <errno.h>
#include <inttypes.h>
#include <sanitizer/common_interface_defs.h>
#include <stdbool.h>
#include <stdio.h>
#include <stdlib.h>
#include <string.h>
#include <sys/mman.h>
#include <time.h>
#include <unistd.h>

/* ---- random numbers: splitmix64, started anew for each question */

static uint64_t state;

static uint64_t any(void)
{
    uint64_t z = state += 0x9e3779b97f4a7c15;
    z = (z ^ z >> 30) * 0xbf58476d1ce4e5b9;
    z = (z ^ z >> 27) * 0x94d049bb133111eb;
    return z ^ z >> 31;
}

static size_t below(size_t n)
{
    return any() % n;
}

static bool once_in(size_t n)
{
    return below(n) == 0;
}

static void fill(unsigned char *at, size_t bytes)
{
    while (bytes > 0) {
        const uint64_t word = any();
        const size_t n = bytes < 8 ? bytes : 8;
        memcpy(at, &word, n);
        at += n;
        bytes -= n;
    }
}

/* ---- questions */

enum { MOST_BYTES = 4096, MOST_LENGTH = 4600, MOST_NUMBERS = 100000 };

enum function { SATISFY, CAUSES, BALANCE, WRITE, FUNCTIONS };

static const char *const function_names[FUNCTIONS] = {"satisfy", "causes", "balance", "write"};

/* A writer is asked with numbers and no sheet, the others the other way round. */
struct question {
    enum function function;
    uint8_t sheet[MOST_BYTES];
    uint16_t numbers[MOST_NUMBERS];
    size_t sheet_length, numbers_length, records, marks, out;
    uint64_t port, class_line, room;
};

static struct question q;
static uint64_t seed, index_of_question;

/* Also what the sanitizer calls before it ends the program. */
static void show_question(void)
{
    fprintf(stderr, "FAILED: seed %" PRIu64 ", question %" PRIu64 "\n", seed, index_of_question);
    fprintf(stderr, "%s, %zu records, %zu marks, %zu words, slots or bytes, ", function_names[q.function], q.records, q.marks, q.out);
    fprintf(stderr, "port %" PRIu64 ", class %" PRIu64 ", room %" PRIu64 ", sheet of %zu bytes, %zu numbers:\n", q.port, q.class_line, q.room,
        q.sheet_length, q.numbers_length);
    for (size_t i = 0; i < q.sheet_length; i++)
        fprintf(stderr, "%02x", q.sheet[i]);
    for (size_t i = 0; i < q.numbers_length && i < 400; i++)
        fprintf(stderr, "%s%u", i == 0 ? "" : " ", q.numbers[i]);
    fprintf(stderr, "%s\n", q.numbers_length > 400 ? " .." : "");
}

static void expect(bool holds, const char *what)
{
    if (holds)
        return;
    fprintf(stderr, "%s\n", what);
    show_question();
    abort();
}

/* ---- a reader and a writer of its own */

struct readout {
    const uint8_t *bytes;
    size_t length, at;
    uint64_t number, place; /* of a fault; 0 and the length if there is none */
    unsigned lines, rules, ports, splits, quantifiers;
    size_t rules_at, ports_at; /* the places of these two counts */
};

static unsigned number(struct readout *r, unsigned limit, unsigned why)
{
    if (r->number != 0)
        return 0;
    const size_t left = r->length - r->at;
    const uint8_t *const s = r->bytes + r->at;
    r->place = r->at;
    if (left == 0 || (s[0] >= 128 && left == 1)) {
        r->number = 1;
        return 0;
    }
    if (s[0] >= 128 && (s[1] == 0 || s[1] >= 128)) {
        r->number = 2;
        return 0;
    }
    const unsigned value = s[0] < 128 ? s[0] : s[0] - 128u + 128u * s[1];
    if (value >= limit) {
        r->number = why;
        return 0;
    }
    r->at += s[0] < 128 ? 1 : 2;
    return value;
}

static void read_line(struct readout *r, unsigned own)
{
    const unsigned kind = number(r, 8, 4);
    if (kind == 2)
        number(r, 32, 4);
    if (kind >= 6)
        number(r, 8, 4);
    if (kind == 4 || kind == 5)
        number(r, own, 5);
    if (kind >= 3)
        number(r, own, 5);
    r->splits += kind == 4 || kind == 5;
    r->quantifiers += kind >= 6;
}

static struct readout read_sheet(const uint8_t *bytes, size_t length)
{
    struct readout r = {.bytes = bytes, .length = length};
    r.lines = number(&r, 33, 3);
    for (unsigned i = 0; i < r.lines; i++)
        read_line(&r, i);
    r.rules_at = r.at;
    r.rules = number(&r, 13, 3);
    for (unsigned i = 0; i < r.rules; i++) {
        number(&r, r.lines, 5);
        number(&r, r.lines, 5);
    }
    r.splits += r.rules;
    r.ports_at = r.at;
    r.ports = number(&r, 9, 3);
    for (unsigned i = number(&r, 17, 3); i > 0; i--) {
        number(&r, r.ports, 5);
        number(&r, r.lines, 5);
    }
    for (unsigned i = number(&r, 17, 3); i > 0; i--) {
        number(&r, 8, 4);
        number(&r, r.ports, 5);
        number(&r, r.ports, 5);
    }
    if (r.number == 0) {
        r.place = r.at;
        r.number = r.at < r.length ? 6 : 0;
    }
    return r;
}

/* The numbers of the question, each in as many groups of seven bits as it needs: one, two from 128 on, three from 16,384 on. What a reader says of these
 * bytes is what the writer has to say. */
static uint8_t spelled[3 * MOST_NUMBERS];

static struct readout read_numbers(void)
{
    size_t n = 0;
    for (size_t i = 0; i < q.numbers_length; i++) {
        const unsigned low = q.numbers[i] % 128, middle = q.numbers[i] / 128 % 128, high = q.numbers[i] / 16384;
        spelled[n++] = (uint8_t)(low + (middle + high > 0 ? 128 : 0));
        if (middle + high > 0)
            spelled[n++] = (uint8_t)(middle + (high > 0 ? 128 : 0));
        if (high > 0)
            spelled[n++] = (uint8_t)high;
    }
    return read_sheet(spelled, n);
}

/* Sheets drawn, and those of them that were left out as too long. */
static uint64_t drawn, left_out;

/* A question that may take long is not asked: 2^splits labels at each port, for each set of rules. */
static bool cheap(const struct readout *r)
{
    const unsigned ports = r->ports == 0 ? 1 : r->ports;
    return r->number != 0 || (r->splits * ports + r->rules <= 14 && r->quantifiers <= 5);
}

/* ---- sheets */

static void put(size_t byte)
{
    if (q.sheet_length < MOST_BYTES)
        q.sheet[q.sheet_length++] = (uint8_t)byte;
}

/* In a sheet in order long counts are rare. A full sheet may take long to answer: all counts are likely, limits more so, and what is just over one is
 * there as well, so that not every full sheet is in order. */
static size_t choose_count(bool full, size_t limit, size_t rarely, size_t mostly)
{
    if (full)
        return once_in(4) ? limit : once_in(32) ? limit + 1 : below(limit + 1);
    return once_in(8) ? below(rarely + 1) : below(mostly + 1);
}

static size_t choose_below(bool full, size_t limit, size_t mostly)
{
    if (full)
        return once_in(256) ? limit : below(limit);
    return once_in(8) ? below(limit) : below(mostly);
}

static void write_sheet(bool full)
{
    const size_t lines = choose_count(full, 32, 32, 12);
    const size_t splits = full ? lines : below(5), quantifiers = full ? lines : below(6);
    /* lines with two operands alone, for the longest sheets */
    const bool wide = full && once_in(4);
    size_t split = 0, quantified = 0;
    put(lines);
    for (size_t i = 0; i < lines; i++) {
        size_t kind = i == 0 ? (wide ? 2 : below(3)) : wide ? 4 + below(4) : below(8);
        if (((kind == 4 || kind == 5) && split++ >= splits) || (kind >= 6 && quantified++ >= quantifiers))
            kind = once_in(2) ? 2 : 3;
        put(kind);
        if (kind == 2)
            put(choose_below(full, 32, 4));
        if (kind >= 6)
            put(choose_below(full, 8, 2));
        if (kind == 4 || kind == 5)
            put(below(i));
        if (kind >= 3)
            put(below(i));
    }
    const size_t rules = lines == 0 ? 0 : choose_count(full, 12, 7, 4);
    put(rules);
    for (size_t i = 0; i < rules; i++) {
        put(below(lines));
        put(below(lines));
    }
    const size_t ports = full ? choose_count(true, 8, 0, 0) : once_in(8) ? below(9) : 1 + below(3);
    put(ports);
    const size_t classes = ports == 0 || lines == 0 ? 0 : choose_count(full, 16, 16, 4);
    put(classes);
    for (size_t i = 0; i < classes; i++) {
        put(below(ports));
        put(below(lines));
    }
    const size_t roles = ports == 0 ? 0 : choose_count(full, 16, 16, 3);
    put(roles);
    for (size_t i = 0; i < roles; i++) {
        put(choose_below(full, 8, 2));
        put(below(ports));
        put(below(ports));
    }
}

static size_t small_or_any(void)
{
    return once_in(2) ? below(10) : below(256);
}

/* One byte changed, left out or put in, or the end cut off or grown. */
static void damage(void)
{
    const size_t n = q.sheet_length, at = below(n + 1);
    switch (below(5)) {
    case 0:
        if (at < n)
            q.sheet[at] = (uint8_t)small_or_any();
        break;
    case 1:
        if (at < n) {
            memmove(q.sheet + at, q.sheet + at + 1, n - at - 1);
            q.sheet_length--;
        }
        break;
    case 2:
        if (n < MOST_BYTES) {
            memmove(q.sheet + at + 1, q.sheet + at, n - at);
            q.sheet[at] = (uint8_t)small_or_any();
            q.sheet_length++;
        }
        break;
    case 3:
        q.sheet_length = at;
        break;
    default:
        put(small_or_any());
    }
}

static void write_bytes(void)
{
    const size_t most[] = {6, 32, 300, MOST_BYTES + 1};
    const bool small = once_in(2);
    for (size_t i = below(most[below(4)]); i > 0; i--)
        put(small ? below(9) : below(256));
}

static void choose_sheet(void)
{
    q.sheet_length = 0;
    switch (below(4)) {
    case 0:
        write_bytes();
        break;
    case 1:
        write_sheet(false);
        for (size_t i = 1 + below(3); i > 0; i--)
            damage();
        break;
    default:
        write_sheet(false);
    }
}

/* ---- numbers */

static uint16_t any_number(void)
{
    const uint16_t edges[] = {0, 7, 8, 9, 12, 13, 16, 17, 31, 32, 33, 127, 128, 129, 16383, 16384, 16385, 32768, 65535};
    return (uint16_t)(once_in(4) ? edges[below(19)] : once_in(4) ? any() : once_in(4) ? below(300) : below(10));
}

/* As for a sheet: one number changed, left out or put in, or the end cut off or grown, and rarely by as much as there is space for. */
static void damage_numbers(void)
{
    const size_t n = q.numbers_length, at = below(n + 1), bytes = sizeof *q.numbers;
    switch (below(5)) {
    case 0:
        if (at < n)
            q.numbers[at] = any_number();
        break;
    case 1:
        if (at < n) {
            memmove(q.numbers + at, q.numbers + at + 1, (n - at - 1) * bytes);
            q.numbers_length--;
        }
        break;
    case 2:
        if (n < MOST_NUMBERS) {
            memmove(q.numbers + at + 1, q.numbers + at, (n - at) * bytes);
            q.numbers[at] = any_number();
            q.numbers_length++;
        }
        break;
    case 3:
        q.numbers_length = at;
        break;
    default:
        for (size_t more = once_in(64) ? MOST_NUMBERS : 1 + below(3); more > 0 && q.numbers_length < MOST_NUMBERS; more--)
            q.numbers[q.numbers_length++] = any_number();
    }
}

/* Those of a sheet, of a damaged sheet, or any. */
static void choose_numbers(void)
{
    q.sheet_length = q.numbers_length = 0;
    if (once_in(4)) {
        const bool small = once_in(2);
        q.numbers_length = once_in(256) ? MOST_NUMBERS : once_in(2) ? below(400) : below(9);
        for (size_t i = 0; i < q.numbers_length; i++)
            q.numbers[i] = small ? (uint16_t)below(9) : any_number();
        return;
    }
    /* each number of such a sheet has one byte */
    write_sheet(once_in(2));
    for (size_t i = 0; i < q.sheet_length; i++)
        q.numbers[q.numbers_length++] = q.sheet[i];
    q.sheet_length = 0;
    if (once_in(2))
        for (size_t i = 1 + below(3); i > 0; i--)
            damage_numbers();
}

static size_t choose_length(void)
{
    const size_t edges[] = {0, 1, 2, 80, 4095, 4096, 4097, MOST_LENGTH};
    switch (below(8)) {
    case 0:
        return edges[below(8)];
    case 1:
        return below(MOST_LENGTH + 1);
    case 2:
    case 3:
        return below(100);
    default:
        return below(6);
    }
}

/* A port or a class: mostly one that is there. */
static uint64_t choose_number(unsigned limit)
{
    return once_in(16) ? any() : once_in(16) || limit == 0 ? limit : below(limit);
}

/* Mostly about as many bytes as are wanted. */
static size_t choose_room(size_t wanted)
{
    const size_t about = wanted + below(5);
    return once_in(4) || wanted > 300 ? choose_length() : once_in(4) ? below(wanted + 1) : about < 2 ? 0 : about - 2;
}

static struct readout choose_question(void)
{
    struct readout r;
    q.function = (enum function)below(FUNCTIONS);
    q.numbers_length = 0;
    for (;;) {
        if (q.function == WRITE) {
            choose_numbers();
            r = read_numbers();
            break;
        }
        choose_sheet();
        r = read_sheet(q.sheet, q.sheet_length);
        drawn++;
        if (cheap(&r))
            break;
        left_out++;
    }
    q.records = choose_length();
    /* mostly as many marks as records or more, so that 7 does not answer too often */
    q.marks = once_in(8) ? choose_length() : q.records + (once_in(2) ? 0 : below(100));
    q.out = q.function == WRITE ? choose_room(r.length) : choose_length();
    q.port = choose_number(r.ports);
    q.class_line = choose_number(r.lines);
    q.room = once_in(16) ? any() : below(4200);
    return r;
}

/* ---- buffers, and what surrounds them */

enum part { SHEET, NUMBERS, RECORDS, MARKS, OUT, CARRIED, LEFT, PARTS };

enum layout { EXACT, BLOCK, PAGES, LAYOUTS };

/* A zone is memory that holds one buffer or all, and `was` is its copy from before the call. */
struct zone {
    unsigned char *at, *was;
    size_t bytes;
};

struct buffer {
    unsigned char *at, *was;
    size_t bytes;
};

/* A zone has whole pages, and holds the longest buffer, of MOST_NUMBERS. */
enum { GUARD = 64, ZONE = 262144, BLOCK_BYTES = PARTS * (ZONE + 2 * GUARD) };

static struct zone zones[PARTS];
static size_t zone_count;
static struct buffer buffers[PARTS];

static struct zone block, pages[PARTS];

static void *need(void *p)
{
    if (p == NULL || p == MAP_FAILED) {
        perror("fuzz");
        exit(2);
    }
    return p;
}

static void make_zones(void)
{
    const size_t page = (size_t)sysconf(_SC_PAGESIZE);
    block = (struct zone){need(malloc(BLOCK_BYTES)), need(malloc(BLOCK_BYTES)), BLOCK_BYTES};
    for (size_t i = 0; i < PARTS; i++) {
        unsigned char *const all = need(mmap(NULL, ZONE + 2 * page, PROT_NONE, MAP_PRIVATE | MAP_ANONYMOUS, -1, 0));
        if (mprotect(all + page, ZONE, PROT_READ | PROT_WRITE) != 0)
            need(NULL);
        pages[i] = (struct zone){all + page, need(malloc(ZONE)), ZONE};
    }
}

static size_t width_of(enum part i)
{
    switch (i) {
    case RECORDS:
        return 8 * q.records;
    case MARKS:
        return q.marks;
    case OUT:
        return (q.function == WRITE ? sizeof(uint8_t) : q.function == CAUSES ? sizeof(uint16_t) : sizeof(uint32_t)) * q.out;
    case SHEET:
        return q.sheet_length;
    case NUMBERS:
        return sizeof(uint16_t) * q.numbers_length;
    default:
        return 8;
    }
}

static void place(enum part i, struct zone z, size_t offset)
{
    buffers[i] = (struct buffer){z.at + offset, z.was + offset, width_of(i)};
}

/* The end of a zone, or its front, of so many bytes. */
static struct zone part_of(struct zone z, size_t bytes, bool front)
{
    const size_t offset = front ? 0 : z.bytes - bytes;
    return (struct zone){z.at + offset, z.was + offset, bytes};
}

static void lend(enum layout l)
{
    size_t end = 0;
    zone_count = l == BLOCK ? 1 : PARTS;
    zones[0] = block;
    for (size_t i = 0; i < PARTS; i++) {
        const size_t bytes = width_of((enum part)i);
        if (l == EXACT) {
            zones[i] = (struct zone){need(malloc(bytes)), need(malloc(bytes)), bytes};
            place((enum part)i, zones[i], 0);
        } else if (l == BLOCK) {
            /* at least 8 guard bytes, and the next multiple of 8 */
            const size_t start = (end + 15 + 8 * below(GUARD / 8 - 1)) / 8 * 8;
            place((enum part)i, block, start);
            end = start + bytes;
        } else {
            const bool front = once_in(2);
            zones[i] = part_of(pages[i], bytes + GUARD, front);
            place((enum part)i, zones[i], front ? 0 : GUARD);
        }
    }
    if (l == BLOCK)
        zones[0].bytes = end + GUARD;
    for (size_t i = 0; i < zone_count; i++)
        fill(zones[i].at, zones[i].bytes);
    if (q.sheet_length > 0)
        memcpy(buffers[SHEET].at, q.sheet, q.sheet_length);
    if (q.numbers_length > 0)
        memcpy(buffers[NUMBERS].at, q.numbers, sizeof(uint16_t) * q.numbers_length);
    for (size_t i = 0; i < zone_count; i++)
        memcpy(zones[i].was, zones[i].at, zones[i].bytes);
}

static void take_back(enum layout l)
{
    for (size_t i = 0; l == EXACT && i < PARTS; i++) {
        free(zones[i].at);
        free(zones[i].was);
    }
}

static bool may_change(enum part i)
{
    switch (i) {
    case RECORDS:
    case MARKS:
        return q.function == SATISFY || q.function == CAUSES;
    case OUT:
        return q.function != BALANCE;
    case CARRIED:
        return true;
    case LEFT:
        return q.function == BALANCE;
    default:
        return false;
    }
}

/* What may be written is taken over into the copy; then the whole has to be the same. */
static void expect_nothing_else_changed(void)
{
    for (size_t i = 0; i < PARTS; i++)
        if (may_change((enum part)i))
            memcpy(buffers[i].was, buffers[i].at, buffers[i].bytes);
    for (size_t i = 0; i < zone_count; i++)
        expect(memcmp(zones[i].was, zones[i].at, zones[i].bytes) == 0, "something outside the buffers changed");
}

static bool untouched(enum part i)
{
    return memcmp(buffers[i].was, buffers[i].at, buffers[i].bytes) == 0;
}

static bool zero_from(enum part i, size_t from)
{
    for (size_t j = from; j < buffers[i].bytes; j++)
        if (buffers[i].at[j] != 0)
            return false;
    return true;
}

/* ---- answers */

struct answer {
    uint64_t number, carried;
    int64_t left;
};

static struct answer ask(void)
{
    struct answer a = {0};
    uint64_t *const carried = (uint64_t *)buffers[CARRIED].at, *const records = (uint64_t *)buffers[RECORDS].at;
    int64_t *const left = (int64_t *)buffers[LEFT].at;
    uint8_t *const sheet = buffers[SHEET].at, *const marks = buffers[MARKS].at;
    if (q.function == SATISFY)
        a.number = bargaindune_satisfy(sheet, q.sheet_length, records, q.records, marks, q.marks, (uint32_t *)buffers[OUT].at, q.out, carried);
    if (q.function == CAUSES)
        a.number = bargaindune_causes(sheet, q.sheet_length, q.port, q.class_line, records, q.records, marks, q.marks, (uint16_t *)buffers[OUT].at, q.out, carried);
    if (q.function == BALANCE) {
        a.number = bargaindune_balance(sheet, q.sheet_length, q.room, carried, left);
        a.left = *left;
    }
    if (q.function == WRITE)
        a.number = bargaindune_write((const uint16_t *)buffers[NUMBERS].at, q.numbers_length, buffers[OUT].at, q.out, carried);
    a.carried = *carried;
    return a;
}

/* 1 to 8: which one, and where; 0 if there is none. */
static struct answer wanted_refusal(const struct readout *r)
{
    const bool badly = q.function == BALANCE ? q.room > 4096 : q.records > 4096 || q.marks < q.records;
    if (badly && q.function != WRITE)
        return (struct answer){.number = 7};
    if (r->number != 0)
        return (struct answer){.number = r->number, .carried = r->place};
    if (q.function == CAUSES && (q.port >= r->ports || q.class_line >= r->lines))
        return (struct answer){.number = 8};
    return (struct answer){.number = 0};
}

static void expect_model(const struct readout *r, uint64_t words)
{
    const uint32_t *const model = (const uint32_t *)buffers[OUT].at;
    expect(words >= 3 && words <= q.out, "a model of that length cannot be there");
    const uint64_t elements = model[0];
    expect(elements >= 1 && elements >= r->ports && elements <= 8 + q.records && elements + 2 <= words, "elements of the model");
    const uint32_t *const edges = model + 1 + elements;
    expect(words == 2 + elements + 3 * (uint64_t)edges[0], "length of the model");
    for (uint64_t i = 0; i < edges[0]; i++) {
        const uint32_t *const e = edges + 1 + 3 * i;
        expect(e[0] < elements && e[1] < 8 && e[2] < elements, "an edge of the model");
        if (i > 0) {
            const uint64_t before = ((uint64_t)e[-3] << 32) + ((uint64_t)e[-2] << 16) + e[-1], now = ((uint64_t)e[0] << 32) + ((uint64_t)e[1] << 16) + e[2];
            expect(before < now, "order of the edges");
        }
    }
}

/* Can the sheet be met if it has these of its rules alone? With as many records and marks as the list had, since these suffice to tell its marks. */
static bool met_with(const struct readout *r, unsigned set)
{
    static uint8_t sheet[MOST_BYTES];
    static uint64_t records[MOST_LENGTH];
    static uint8_t marks[MOST_LENGTH + 100];
    size_t n = r->rules_at + 1;
    uint32_t nothing;
    uint64_t carried;
    memcpy(sheet, r->bytes, r->rules_at);
    sheet[r->rules_at] = 0;
    for (unsigned i = 0; i < r->rules; i++)
        if (set >> i & 1) {
            sheet[r->rules_at]++;
            memcpy(sheet + n, r->bytes + r->rules_at + 1 + 2 * i, 2);
            n += 2;
        }
    memcpy(sheet + n, r->bytes + r->ports_at, r->length - r->ports_at);
    n += r->length - r->ports_at;
    const uint64_t answer = bargaindune_satisfy(sheet, n, records, q.records, marks, q.marks, &nothing, 0, &carried);
    expect(answer == BARGAINDUNE_LONG_MODEL || answer == BARGAINDUNE_UNSATISFIABLE, "whether a cause can be met");
    return answer == BARGAINDUNE_LONG_MODEL;
}

/* Causes seen of each sort, and lists that have both. */
static uint64_t catching, contradictory, both_marks;

/* Rules ascend, the mark aside, no set holds another, and a set is marked exactly if the sheet with its rules alone cannot be met. */
static void expect_list(const struct readout *r, uint64_t sets)
{
    const uint16_t *const list = (const uint16_t *)buffers[OUT].at;
    uint64_t marked = 0;
    expect(sets <= q.out, "a list of that length cannot be there");
    for (uint64_t i = 0; i < sets; i++) {
        const unsigned rules = BARGAINDUNE_RULES(list[i]);
        expect(rules >> r->rules == 0, "a rule that is not on the sheet");
        expect(i == 0 || BARGAINDUNE_RULES(list[i - 1]) < rules, "order of the list");
        for (uint64_t j = 0; j < i; j++)
            expect((BARGAINDUNE_RULES(list[j]) & rules) != BARGAINDUNE_RULES(list[j]), "a cause that holds another");
        expect(BARGAINDUNE_IS_CONTRADICTORY(list[i]) != met_with(r, rules), "the mark of a cause");
        marked += BARGAINDUNE_IS_CONTRADICTORY(list[i]);
    }
    catching += sets - marked;
    contradictory += marked;
    both_marks += marked > 0 && marked < sets;
}

/* Numbers that make a sheet: its bytes and nothing else, or no byte. */
static void expect_written(const struct readout *r, struct answer a)
{
    expect(r->length <= BARGAINDUNE_MOST_SHEET, "a sheet that is longer than any");
    expect(a.number == (q.out < r->length ? BARGAINDUNE_SHORT_BUFFER : BARGAINDUNE_WRITTEN), "the sheet is in order, and fits or does not");
    expect(a.carried == r->length, "the length of the sheet");
    const size_t n = a.number == BARGAINDUNE_WRITTEN ? r->length : 0;
    expect(memcmp(buffers[OUT].at, r->bytes, n) == 0, "the bytes of the sheet");
    expect(memcmp(buffers[OUT].at + n, buffers[OUT].was + n, buffers[OUT].bytes - n) == 0, "bytes behind the sheet changed");
}

static void expect_answer(const struct readout *r, struct answer a)
{
    const struct answer refusal = wanted_refusal(r);
    const uint64_t e = r->quantifiers, bound = e == 0 ? 0 : e << (e - 1);
    if (refusal.number != 0) {
        expect(a.number == refusal.number && a.carried == refusal.carried && a.left == 0, "another refusal was wanted");
        expect(untouched(RECORDS) && untouched(MARKS) && untouched(OUT), "a refusal touched a buffer");
        return;
    }
    if (q.function == WRITE) {
        expect_written(r, a);
        return;
    }
    if (q.function == BALANCE) {
        expect(a.number == 0 && a.carried == 0 && a.left == (int64_t)q.room - (int64_t)bound, "the balance");
        return;
    }
    expect(zero_from(RECORDS, 0) && zero_from(MARKS, 0), "records and marks have to end as zero");
    if (q.function == SATISFY && a.number == 10) {
        expect_model(r, a.carried);
        expect(zero_from(OUT, 4 * a.carried), "zeros behind the model");
        return;
    }
    if (q.function == CAUSES && a.number == 14) {
        expect_list(r, a.carried);
        expect(zero_from(OUT, 2 * a.carried), "zeros behind the list");
        return;
    }
    expect(zero_from(OUT, 0), "zeros alone");
    if (a.number == (q.function == SATISFY ? 11 : 15)) {
        expect(a.carried > q.out, "what is longer than its buffer");
        return;
    }
    expect(a.number == 13 || (q.function == SATISFY && a.number == 12), "no answer of this function");
    expect(a.number == 12 || q.records < bound, "there is space");
    expect(a.carried == 0, "12 and 13 carry 0");
}

/* ---- the whole run */

enum { ANSWERS = 17 };

static uint64_t counts[FUNCTIONS][ANSWERS];

static double seconds(void)
{
    struct timespec t;
    clock_gettime(CLOCK_MONOTONIC, &t);
    return (double)t.tv_sec + 1e-9 * (double)t.tv_nsec;
}

/* An argument: decimal digits and nothing else, from `least` to `most`. */
static uint64_t argument(const char *what, const char *said, uint64_t least, uint64_t most)
{
    errno = 0;
    const uint64_t value = strtoull(said, NULL, 10);
    if (said[0] == '\0' || said[strspn(said, "0123456789")] != '\0' || errno != 0 || value < least || value > most) {
        fprintf(stderr, "fuzz: %s has to be a number from %" PRIu64 " to %" PRIu64 ", not '%s'\n", what, least, most, said);
        exit(2);
    }
    return value;
}

int main(int argc, char **argv)
{
    if (argc > 4) {
        fprintf(stderr, "fuzz [SECONDS [SEED [FIRST]]]\n");
        exit(2);
    }
    const double whole = argc > 1 ? (double)argument("SECONDS", argv[1], 1, 1000000) : 60;
    seed = argc > 2 ? argument("SEED", argv[2], 0, UINT64_MAX) : 1;
    const uint64_t first = argc > 3 ? argument("FIRST", argv[3], 0, UINT64_MAX) : 0;
    static unsigned char kept[4 * MOST_LENGTH];
    const double start = seconds();
    size_t most_numbers = 0, longest_sheet = 0;
    double slowest = 0;
    uint64_t slowest_index = 0;
    __sanitizer_set_death_callback(show_question);
    make_zones();
    for (index_of_question = first; seconds() - start < whole; index_of_question++) {
        state = seed;
        state = any() + index_of_question;
        const struct readout r = choose_question();
        if (q.numbers_length > most_numbers)
            most_numbers = q.numbers_length;
        if (q.function == WRITE && r.number == 0 && r.length > longest_sheet)
            longest_sheet = r.length;
        struct answer before = {0};
        for (size_t l = EXACT; l < LAYOUTS; l++) {
            lend((enum layout)l);
            const double asked = seconds();
            const struct answer a = ask();
            const double took = seconds() - asked;
            expect_answer(&r, a);
            if (l == EXACT) {
                before = a;
                memcpy(kept, buffers[OUT].at, buffers[OUT].bytes);
            }
            expect(a.number == before.number && a.carried == before.carried && a.left == before.left, "the answer changed with what surrounds the buffers");
            /* a writer leaves what was there before, which differs */
            if (a.number >= 10 && q.function != WRITE)
                expect(memcmp(kept, buffers[OUT].at, buffers[OUT].bytes) == 0, "the result changed with what surrounds the buffers");
            expect_nothing_else_changed();
            take_back((enum layout)l);
            counts[q.function][a.number]++;
            if (took > slowest) {
                slowest = took;
                slowest_index = index_of_question;
            }
        }
    }
    uint64_t calls = 0;
    for (size_t f = 0; f < FUNCTIONS; f++)
        for (size_t n = 0; n < ANSWERS; n++)
            if (counts[f][n] > 0) {
                printf("%-8s %2zu %10" PRIu64 "\n", function_names[f], n, counts[f][n]);
                calls += counts[f][n];
            }
    if (calls == 0) {
        fprintf(stderr, "fuzz: nothing was asked\n");
        return 1;
    }
    printf("to be written: up to %zu numbers, sheets of up to %zu bytes\n", most_numbers, longest_sheet);
    printf("causes: %" PRIu64 " catching, %" PRIu64 " contradictory, %" PRIu64 " lists with both\n", catching, contradictory, both_marks);
    printf("left out as too long: %" PRIu64 " of %" PRIu64 " sheets drawn\n", left_out, drawn);
    printf("seed %" PRIu64 ", questions %" PRIu64 " to %" PRIu64 ", %" PRIu64 " calls in %.0f s, the slowest %.1f ms (question %" PRIu64 "): nothing outside the buffers changed\n",
        seed, first, index_of_question - 1, calls, seconds() - start, 1e3 * slowest, slowest_index);
    return 0;
}
