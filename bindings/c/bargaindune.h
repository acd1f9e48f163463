/* Bargaindune for C: a writer of sheets and three questions about a sheet, answered by target/staticlib/libdesk.a (`tools/build desk_c` makes it).
 *
 * docs/FORMAT.md says what a sheet, a model and a cause list are, byte for byte; docs/PROMISES.md says what is proved.
 * The functions take any bytes, any numbers and buffers of any length. What they are proved to do rests on this alone, which C cannot check:
 * - each pointer stands for as many entries as its length says, is aligned for its type and is not NULL, not even where the length is 0;
 * - `carried` and `left` are places of their own, and no buffer overlaps another, the sheet, the numbers or such a place;
 * - nothing else writes to the sheet or the numbers, or touches the buffers, while the function runs.
 *
 * No heap is taken and nothing is kept between calls, so threads may ask at once, each with buffers of its own.
 * The search calls itself for each mark that it adds, at most 32 at each of 8 individuals: leave it half a megabyte of stack.
 *
 * Time. Every call ends, but not every call ends in a lifetime, and what is lent does not bound it: records bound memory, not time.
 * - Each or line that holds, each and line that fails and each rule may split a label in two: with the 12 rules of a full sheet 2^12 labels of one
 *   element, with more such lines more.
 * - The labels of individuals multiply together: 8 ports under 12 rules may have 2^96 joint labels, all of which are tried where none is fine.
 * - Each record is expanded like a label of its own, and again in each pass of striking out; `bargaindune_causes` judges up to 2^12 sets of rules.
 * Splits whose first branch is fine cost nothing, so that most sheets take microseconds (docs/MEASURED.md); but a sheet as a designer might write it,
 * with a dozen rules, six ports and one assertion, can be one that does not end (measure/long.txt). The balance counts records, not time.
 * Nothing cancels a call: there is no limit of steps, no flag that is looked at, and no call back. Where a sheet is not known to be short, ask in a process
 * of its own, which can be killed, or in a thread that can be abandoned, with buffers that nobody frees or uses while it runs. An abandoned thread keeps its
 * processor busy until the process ends. A call that was given up has said nothing: that is no answer 12, and no answer 13.
 */
#ifndef BARGAINDUNE_H
#define BARGAINDUNE_H

#include <stddef.h>
#include <stdint.h>

#ifdef __cplusplus
extern "C" {
#endif

/* The answer numbers. What an answer carries is put into *carried.
 *
 * Under 1 to 8 and 16 no buffer is touched. Under 10 to 15 all records and all mark bytes lent end as zero, and the model or list buffer
 * holds what is said here. */
enum {
    /* `bargaindune_balance` only: there is no fault; *carried is 0, and *left holds what is left */
    BARGAINDUNE_LEFT = 0,

    /* `bargaindune_write` only: carries the length of the sheet, whose bytes stand at the front of the buffer; those behind them stay as they were */
    BARGAINDUNE_WRITTEN = 0,

    /* faults of the sheet, the first from its front; they carry the place: the index of the faulty number's first byte,
     * the sheet's length if it has none, and under 6 the first spare byte. `bargaindune_write` gives the number and the place that the bytes of its
     * numbers would have got */
    BARGAINDUNE_CUT = 1,          /* the sheet ends inside or before a number */
    BARGAINDUNE_BADLY_FORMED = 2, /* a badly formed number */
    BARGAINDUNE_OVER_LIMIT = 3,   /* a count over its limit */
    BARGAINDUNE_TOO_LARGE = 4,    /* a kind, name or role too large */
    BARGAINDUNE_NOT_THERE = 5,    /* a line or individual that may not be named there */
    BARGAINDUNE_LEFT_OVER = 6,    /* bytes left over */

    /* carries 0, and is tested before the sheet is looked at */
    BARGAINDUNE_LENT_BADLY = 7, /* over 4,096 records lent, or fewer mark bytes than records */

    /* carries 0, `bargaindune_causes` only, and is tested after every fault of the sheet */
    BARGAINDUNE_OFF_SHEET = 8, /* port or class of a query not on the sheet */

    /* `bargaindune_satisfy` */
    BARGAINDUNE_MODEL = 10,         /* satisfiable; carries the words of the model, which stand in its buffer with zeros behind them */
    BARGAINDUNE_LONG_MODEL = 11,    /* satisfiable; carries the words wanted, more than the buffer has, which ends as zeros */
    BARGAINDUNE_UNSATISFIABLE = 12, /* no finite interpretation meets the sheet; carries 0, and the model buffer ends as zeros */

    /* `bargaindune_satisfy` and `bargaindune_causes` */
    BARGAINDUNE_OUT_OF_SPACE = 13, /* the records needed outnumber those lent; carries 0, and the model or list buffer ends as zeros. For causes that is
                                    * so if judging one of the sets, or telling the mark of a listed one, needs more; and it comes before 15 */

    /* `bargaindune_causes` */
    BARGAINDUNE_CAUSES = 14,    /* carries how many causes there are, whose slots stand in the list buffer with zeros behind them */
    BARGAINDUNE_LONG_LIST = 15, /* carries how many causes there are, more than the buffer has slots; it ends as zeros */

    /* `bargaindune_write` */
    BARGAINDUNE_SHORT_BUFFER = 16 /* the sheet is in order; carries the length wanted, more than the buffer has bytes */
};

/* Lengths that always suffice.
 *
 * Records: with e some and only lines on the sheet, e * 2^(e-1) suffice (`bargaindune_balance` counts them), so with 4,096, the most
 * that may be lent, 13 is not given up to e = 9. Mark bytes: as many as records; more are fine.
 * Words: there are at most 8 individuals and 4,096 more elements, 31 edges asked for by each, and 16 role assertions.
 * 2 + n + 3 * (31 * n + 16) words with n = 8 + records suffice for fewer records. A model buffer of length 0 is told the words wanted.
 * Slots: one for each set of 12 rules is more than enough.
 * Bytes of a sheet: each number that is in order takes one. There are five counts, and at most three numbers for each of 32 lines, two for each of 12 rules
 * and of 16 class assertions, and three for each of 16 role assertions. */
#define BARGAINDUNE_MOST_RECORDS 4096
#define BARGAINDUNE_MOST_WORDS 385826
#define BARGAINDUNE_MOST_SLOTS 4096
#define BARGAINDUNE_MOST_SHEET 205

/* The sheet of these numbers, in bytes, each number in as many groups of seven bits as it needs. They stand in the order of a sheet: the count of lines,
 * each line's kind and operands, the count of rules, .. (docs/FORMAT.md). Any numbers may be given, however many.
 * Numbers that make no sheet get the answer that a reader would give to their bytes: 1 where they end too early, 2 at a number of 16,384 or more, which
 * wants a third byte, 6 where some are left over, and 3 to 5 as they are. Only a sheet in order can find the buffer too short: 16 comes behind 1 to 6.
 * Answers 0, 1 to 6, 16. */
uint64_t bargaindune_write(
    const uint16_t *numbers, size_t numbers_length,
    uint8_t *out, size_t out_length,
    uint64_t *carried);

/* Is the sheet satisfiable? With its model, or the length that it wants.
 * Answers 1 to 7, 10 to 13. */
uint64_t bargaindune_satisfy(
    const uint8_t *sheet, size_t sheet_length,
    uint64_t *records, size_t records_length,
    uint8_t *marks, size_t marks_length,
    uint32_t *model, size_t model_length,
    uint64_t *carried);

/* A slot of a cause list: which rules are in the set, rule n worth 2^n, and whether it is marked, which is the top bit.
 * - Not marked, the set is catching: some finite interpretation meets its rules and the assertions, and each that does has the port in the class.
 * - Marked, the set is contradictory: none meets its rules and the assertions. Such a set forces everything, whatever is asked. Its rules cannot stand
 *   beside the assertions, or, where there is no rule in it, the assertions contradict each other: then it is the one slot of the list, 32768.
 * Where a list has zeros behind its slots, carried tells them apart from a set without rules, slot 0. */
#define BARGAINDUNE_CONTRADICTORY 0x8000u
#define BARGAINDUNE_RULES(slot) ((slot) & 0x7fffu)
#define BARGAINDUNE_IS_CONTRADICTORY(slot) (((slot) & BARGAINDUNE_CONTRADICTORY) != 0)

/* Which smallest sets of rules force the port, an individual's number, into the class, a line's number?
 * Each set takes a slot with its mark; without their marks the slots ascend. A sheet that cannot be met forces everything: of rules that contradict each
 * other the list has all, as a marked set, or a part of them that catches by itself. So a list without a marked set does not say that the sheet can be met.
 * Answers 1 to 8, 13 to 15. */
uint64_t bargaindune_causes(
    const uint8_t *sheet, size_t sheet_length,
    uint64_t port, uint64_t class_line,
    uint64_t *records, size_t records_length,
    uint8_t *marks, size_t marks_length,
    uint16_t *list, size_t list_length,
    uint64_t *carried);

/* What is left of a room of so many records if the sheet needs as many as it can: the room minus e * 2^(e-1), minus 0 where e is 0.
 * Below zero is an answer and no error. Under 1 to 7 *left ends as 0; 7 is a room over 4,096.
 * Answers 0, 1 to 7. */
uint64_t bargaindune_balance(
    const uint8_t *sheet, size_t sheet_length,
    uint64_t room,
    uint64_t *carried, int64_t *left);

#ifdef __cplusplus
}
#endif

#endif
