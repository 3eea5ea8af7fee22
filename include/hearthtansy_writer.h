/*
 * Hearthtansy: the writer of verdicts, which also tells the pieces that would fall, and the groups of pieces that hold together, for a program
 * that prepares plans. The writer is in libcertify_texts.a, the text of the pieces that would fall in libfallen_texts.a, the groups are in
 * libcomponents_texts.a. A board's firmware needs hearthtansy.h and libverify_texts.a alone.
 *
 * The functions keep nothing between calls and always return. No input is taken on trust: every number and every byte is judged, and
 * what can't be taken is answered by a refusal.
 *
 * The caller sees to it that each pointer is not null, also where its length is 0, that it is aligned for its type, that as many numbers
 * or bytes stand behind it as its length says, that nothing else changes or reads them until the call returns, and that what is written
 * to overlaps neither what is read nor what else is written to.
 *
 * Stack and machine: as hearthtansy.h says. HEARTHTANSY_VERDICT_STACK, HEARTHTANSY_VERDICT_TEXT_STACK, HEARTHTANSY_FALLEN_TEXT_STACK,
 * HEARTHTANSY_GROUPS_STACK and HEARTHTANSY_GROUPS_TEXT_STACK are the bytes of stack to keep free below the call; the archives link into x86-64
 * programs alone.
 */
#ifndef HEARTHTANSY_WRITER_H
#define HEARTHTANSY_WRITER_H

#include <stddef.h>
#include <stdint.h>

#ifdef __cplusplus
extern "C" {
#endif

/* Bytes of stack to keep free below a call. */
#define HEARTHTANSY_VERDICT_STACK 83968
#define HEARTHTANSY_VERDICT_TEXT_STACK 125952
#define HEARTHTANSY_FALLEN_TEXT_STACK 104448
#define HEARTHTANSY_GROUPS_STACK 97280
#define HEARTHTANSY_GROUPS_TEXT_STACK 121856

/* Words that are lent for the marks of the pieces that would fall: one bit for each piece, sixty-four to a word. */
#define HEARTHTANSY_FALLEN_WORDS 16

/*
 * The verdict on a plan, and the pieces that would fall. `ends` has two numbers for each tab, the pieces that it joins; `excluded` has the
 * slugs, ascending, and where there are none its length is 0; `rows` is lent for the record. The lengths count numbers, not bytes. `fallen` is
 * lent for the marks, always HEARTHTANSY_FALLEN_WORDS words. The answer is four numbers of sixteen bits, the first in the uppermost:
 *
 *   0, 0, 0, 0           firm: the first three numbers for each kept tab in `rows` are the record (step, tab, piece), which passes the
 *                        check; those behind stay. `fallen` is unchanged
 *   1, count, tab, tab   weak: the fewest kept tabs whose loss parts the sheet, the lowest such set; unused places are 0. `rows` is
 *                        unchanged. All words of `fallen` are written: bit v % 64 of word v / 64, counted from the lowest, is set
 *                        exactly if piece v is kept and the lowest kept piece does not reach it over the kept tabs that are not named here
 *   2, number, place, 0  refused: 1 to 5, 18 or 19 as hearthtansy.h has them, or 6, fewer than three numbers for each kept tab. `rows` and
 *                        `fallen` are unchanged
 *
 * `fallen_count` is always written: how many bits are set, 1 or more, where the plan is weak, else 0.
 */
uint64_t hearthtansy_verdict(uint16_t vertices, const uint16_t *ends, size_t ends_length,
                             const uint16_t *excluded, size_t excluded_length, uint16_t *rows, size_t rows_length,
                             uint64_t *fallen, uint16_t *fallen_count);

/*
 * The verdict text of a plan text, at the front of `text`; the bytes behind it stay. For a plan that is refused it is of kind 2 with the
 * refusal's number. The answer is its length, or 0 where `text` has fewer bytes; then `text` is unchanged. 64,011 bytes are always enough.
 */
size_t hearthtansy_verdict_text(const uint8_t *plan, size_t plan_length, uint8_t *text, size_t text_length);

/*
 * The pieces of a plan text that would fall once the tabs of its verdict are lost, as text, at the front of `text`; the bytes behind it stay. It
 * has one line with their number, 0 for a firm plan, then one line for each, ascending; for a plan that is refused one line with the refusal's
 * number alone. So a single line is a firm plan's 0 or a refusal, which is never 0. The answer is its length, or 0 where `text` has fewer bytes;
 * then `text` is unchanged. 6,000 bytes are always enough.
 */
size_t hearthtansy_fallen_text(const uint8_t *plan, size_t plan_length, uint8_t *text, size_t text_length);

/*
 * The groups of a plan: two kept pieces hold together when no loss of two or fewer tabs parts them. `ends` has two numbers for each tab, the
 * pieces that it joins; `excluded` has the slugs, ascending, and where there are none its length is 0; `table` is lent for the groups. The
 * lengths count numbers, not bytes. The answer is a number and a place in one uint32_t, the number in the upper sixteen bits, the place in the
 * lower, as hearthtansy.h has it:
 *
 *   0        served: for each piece, in the order of their numbers, `table` has the lowest numbered piece of its group, and for a slug itself;
 *            the numbers behind stay
 *   1 to 5, 18, 19
 *            the plan is refused, with the places of hearthtansy.h. `table` is unchanged
 *   6        `table` has fewer than one number for each piece, slugs too. It is unchanged
 */
uint32_t hearthtansy_groups(uint16_t vertices, const uint16_t *ends, size_t ends_length,
                            const uint16_t *excluded, size_t excluded_length, uint16_t *table, size_t table_length);

/*
 * The groups of a plan text as text, at the front of `text`; the bytes behind it stay. It has one line for each kept piece, piece and group in
 * two columns; for a plan that is refused one line with the refusal's number alone. The answer is its length, or 0 where `text` has fewer bytes;
 * then `text` is unchanged. 11,000 bytes are always enough.
 */
size_t hearthtansy_groups_text(const uint8_t *plan, size_t plan_length, uint8_t *text, size_t text_length);

/* The parts of a verdict. */
static inline uint16_t hearthtansy_kind(uint64_t verdict)
{
    return (uint16_t)(verdict >> 48);
}

static inline uint16_t hearthtansy_count(uint64_t verdict)
{
    return (uint16_t)(verdict >> 32);
}

static inline uint16_t hearthtansy_first(uint64_t verdict)
{
    return (uint16_t)(verdict >> 16);
}

static inline uint16_t hearthtansy_second(uint64_t verdict)
{
    return (uint16_t)verdict;
}

/* Whether a piece is marked in the words of a weak verdict; 0 for a number that no word has a bit for. */
static inline int hearthtansy_is_fallen(const uint64_t *fallen, uint16_t piece)
{
    return piece < 64 * HEARTHTANSY_FALLEN_WORDS && (fallen[piece / 64] >> (piece % 64) & 1) != 0;
}

#ifdef __cplusplus
}
#endif

#endif
