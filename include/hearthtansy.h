/*
 * Hearthtansy: the check of a verdict about a plan, for a board's firmware.
 *
 * Both functions only read what they are lent, keep nothing between calls and always return. No input is taken on trust: every number
 * and every byte is judged, and what can't be taken is answered by a refusal.
 *
 * The caller sees to it that each pointer is not null, also where its length is 0, that it is aligned for its type, that as many
 * numbers or bytes can be read behind it as its length says, and that nothing changes them until the call returns.
 *
 * Stack: the proof is about a machine whose stack has no end, so the caller sees to it that there is enough. HEARTHTANSY_CHECK_STACK and
 * HEARTHTANSY_CHECK_TEXTS_STACK are the bytes to keep free below the call: what was measured at the largest inputs, by `bench/run stack`,
 * rounded up by a kilobyte or two. Interrupts that run on the same stack come on top. Nothing calls itself or goes through a pointer, so no
 * input takes more than the deepest chain of calls, which the measured ones go down. No heap is used.
 *
 * Machine: the toolchain compiles for x86-64 Linux, so the archive links into x86-64 programs alone, by the System V calling convention.
 * Of the C library it takes memcpy and memset. A board with another processor can't link it. Until there is more, such a
 * board does not judge by itself: it goes on unwatched only at the answer of an x86-64 machine beside it that runs this check, over a link on
 * which nobody else can speak; that machine and the link are then trusted like the board. Where it runs Linux, an emulator of x86-64 can
 * run the program verdict_check instead, and is then trusted as well.
 *
 * An answer is a number and a place in one uint32_t: the number in the upper sixteen bits, the place in the lower.
 *
 *   0        passed; the place is 0, so the whole answer is 0
 *
 *   the plan is refused:
 *   1        count of ends is odd
 *   2        fewer than 2 or more than 1,000 pieces
 *   3        more than 4,000 tabs
 *   4        an end is not below the number of pieces; place: the tab
 *   5        both ends of a tab are the same; place: the tab
 *   18       a slug is not below the number of pieces, or not above the one before; place: its position
 *   19       fewer than 2 pieces are kept
 *
 *   a text is refused:
 *   7        plan text not in the form
 *   8        verdict text not in the form
 *
 *   the verdict is rejected:
 *   9        kind other than 0 or 1; firm with other than three numbers for each kept tab; weak with over 2 tabs
 *   10       first step not 0, or a step neither the last one nor one more; place: the row
 *   11       tab not below the tabs, not kept, or used before; place: the row. In a weak list also: not above the one before; place: the
 *            position
 *   12       piece not an end of the tab, or not where the walk of this step has come to; place: the row
 *   13       step 0, 1 or 2 breaks its rule; place: the last row of the step
 *   14       a later step's ends or inner pieces break their rule; place: the last row of the step
 *   15       the link rule is broken; place: the last row of the step
 *   16       the closing rule is broken
 *   17       the weak list does not part the sheet
 *
 * Where no place is named it is 0. Tabs, rows and positions count from 0. No other number is ever answered.
 *
 * Slugs are the pieces that are meant to fall. All other pieces are kept, and so are the tabs between them, under the numbers that they were
 * drawn with; firm and weak are about these.
 */
#ifndef HEARTHTANSY_H
#define HEARTHTANSY_H

#include <stddef.h>
#include <stdint.h>

#ifdef __cplusplus
extern "C" {
#endif

/* Bytes of stack to keep free below a call. */
#define HEARTHTANSY_CHECK_STACK 39936
#define HEARTHTANSY_CHECK_TEXTS_STACK 81920

/*
 * The check of a verdict about a plan, both as numbers. `ends` has two numbers for each tab, the pieces that it joins. `excluded` has the
 * slugs, ascending; where there are none, its length is 0 and it may point at anything that is not null, as at `ends`. `kind` is 0 for a firm
 * verdict, whose `list` has three numbers for each row (step, tab, piece), and 1 for a weak one, whose `list` has the tabs. The lengths count
 * numbers, not bytes.
 */
uint32_t hearthtansy_check(uint16_t vertices, const uint16_t *ends, size_t ends_length,
                           const uint16_t *excluded, size_t excluded_length,
                           uint16_t kind, const uint16_t *list, size_t list_length);

/*
 * The check of a verdict text about a plan text. The plan is read first, and any refusal there is the answer. The lengths count bytes; no
 * zero byte ends a text. What is read is kept on the stack, in two tables of 42,000 bytes together.
 */
uint32_t hearthtansy_check_texts(const uint8_t *plan, size_t plan_length,
                                 const uint8_t *verdict, size_t verdict_length);

/* The two parts of an answer. */
static inline uint16_t hearthtansy_number(uint32_t answer)
{
    return (uint16_t)(answer >> 16);
}

static inline uint16_t hearthtansy_place(uint32_t answer)
{
    return (uint16_t)(answer & 0xffff);
}

#ifdef __cplusplus
}
#endif

#endif
