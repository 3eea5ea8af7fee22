/*
 * What a program that prepares plans does: it has verdicts written, as numbers and as texts, and shows that the check passes each. The plans
 * are those of document 01, and two with a slug. A verdict is printed as its four numbers, a record row by row, and the check's answer behind it.
 */
#include <stdio.h>
#include <string.h>

#include "hearthtansy.h"
#include "hearthtansy_writer.h"

#define COUNT(list) (sizeof(list) / sizeof((list)[0]))
#define MOST 100

static void print_check(uint32_t answer)
{
    printf("check%5u%5u\n", (unsigned)hearthtansy_number(answer), (unsigned)hearthtansy_place(answer));
}

/* A plan: its pieces, the ends of its tabs and its slugs. */
struct plan {
    uint16_t pieces;
    const uint16_t *ends;
    size_t length;
    const uint16_t *slugs;
    size_t count;
};

static int is_slug(const struct plan *plan, uint16_t piece)
{
    for (size_t i = 0; i < plan->count; i++)
        if (plan->slugs[i] == piece)
            return 1;
    return 0;
}

/* How many tabs end at no slug: a record has a row for each. */
static size_t kept(const struct plan *plan)
{
    size_t tabs = 0;

    for (size_t i = 0; i + 1 < plan->length; i += 2)
        tabs += !is_slug(plan, plan->ends[i]) && !is_slug(plan, plan->ends[i + 1]);
    return tabs;
}

static uint32_t check(const struct plan *plan, uint16_t kind, const uint16_t *list, size_t length)
{
    return hearthtansy_check(plan->pieces, plan->ends, plan->length, plan->slugs, plan->count, kind, list, length);
}

/* The verdict on a plan, lent `space` numbers; then the check of it. Which pieces would fall is fallen.c's. */
static void decide_slugs(const struct plan *plan, size_t space)
{
    uint16_t rows[MOST] = {0};
    uint64_t fallen[HEARTHTANSY_FALLEN_WORDS];
    uint16_t fallen_count;
    uint64_t verdict = hearthtansy_verdict(plan->pieces, plan->ends, plan->length, plan->slugs, plan->count, rows, space,
                                           fallen, &fallen_count);
    uint16_t kind = hearthtansy_kind(verdict);
    uint16_t cut[] = {hearthtansy_first(verdict), hearthtansy_second(verdict)};

    printf("%5u%5u%5u%5u\n", (unsigned)kind, (unsigned)hearthtansy_count(verdict), (unsigned)cut[0], (unsigned)cut[1]);
    if (kind == 0) {
        for (size_t row = 0; row < kept(plan); row++)
            printf("%5u%5u%5u\n", (unsigned)rows[3 * row], (unsigned)rows[3 * row + 1], (unsigned)rows[3 * row + 2]);
        print_check(check(plan, 0, rows, 3 * kept(plan)));
    } else if (kind == 1) {
        print_check(check(plan, 1, cut, hearthtansy_count(verdict)));
    }
}

/* The same of a plan without slugs. */
static void decide(uint16_t pieces, const uint16_t *ends, size_t length, size_t space)
{
    static const uint16_t none[] = {0}; /* no pointer is null, also where its length is 0 */
    const struct plan plan = {pieces, ends, length, none, 0};

    decide_slugs(&plan, space);
}

/* The verdict text of a plan text, lent `space` bytes; then the check of both. */
static void decide_text(const char *plan, size_t space)
{
    static uint8_t text[64011];
    size_t length = hearthtansy_verdict_text((const uint8_t *)plan, strlen(plan), text, space);

    printf("%zu bytes\n", length);
    fwrite(text, 1, length, stdout);
    print_check(hearthtansy_check_texts((const uint8_t *)plan, strlen(plan), text, length));
}

/* Piece 1 is a slug. All numbers are the drawn ones. */
static void slugs(void)
{
    static const uint16_t around[] = {0, 2, 1, 2, 0, 2, 0, 1, 2, 3, 2, 3, 1, 3};
    static const uint16_t three[] = {0, 2, 0, 1, 2, 0, 1, 2, 0, 2};
    static const uint16_t slug[] = {1};
    static const uint16_t falling[] = {1, 0};
    static const uint16_t most[] = {1, 2};
    const struct plan weak = {4, around, COUNT(around), slug, COUNT(slug)};
    const struct plan firm = {3, three, COUNT(three), slug, COUNT(slug)};
    const struct plan order = {3, three, COUNT(three), falling, COUNT(falling)};
    const struct plan alone = {3, three, COUNT(three), most, COUNT(most)};

    decide_slugs(&weak, MOST); /* 01's example around a slug, weak: tabs 0 and 2 */
    decide_slugs(&firm, 9);    /* P4 around a slug, firm: three rows for three kept tabs */
    decide_slugs(&firm, 8);    /* refused: 6, one number too few */
    decide_slugs(&order, 8);   /* refused: 18 at 1, before 6 */
    decide_slugs(&alone, 8);   /* refused: 19 */
    decide_text("    3    5    1\n    0    2\n    0    1\n    2    0\n    1    2\n    0    2\n    1\n", 64011);
    decide_text("    3    0    2\n    1\n    0\n", 64011); /* refused: kind 2 with 18; the check answers 18 at 1 */
}

int main(void)
{
    static const uint16_t example[] = {0, 1, 0, 1, 1, 2, 1, 2};
    static const uint16_t one[] = {0, 1};
    static const uint16_t three[] = {0, 1, 0, 1, 0, 1};
    static const uint16_t six[] = {0, 1, 0, 2, 0, 3, 1, 2, 1, 3, 2, 3};
    static const uint16_t nine[] = {0, 1, 0, 1, 0, 1, 1, 2, 1, 2, 1, 2};
    static const uint16_t ten[] = {7, 7};

    decide(3, example, COUNT(example), MOST); /* weak: tabs 0 and 1 */
    decide(2, one, 0, MOST);                  /* P1, weak: no tab named */
    decide(2, one, COUNT(one), MOST);         /* P2, weak: tab 0 */
    decide(2, three, COUNT(three), MOST);     /* P4, firm */
    decide(3, three, COUNT(three), MOST);     /* P5, weak: no tab named */
    decide(4, six, COUNT(six), MOST);         /* P6, firm */
    decide(3, nine, COUNT(nine), MOST);       /* P9, firm */
    decide(5, ten, COUNT(ten), MOST);         /* P10, refused: 4, not 5 */
    decide(4, six, COUNT(six), 17);           /* refused: 6, one number too few */
    decide_text("    3    4\n    0    1\n    0    1\n    1    2\n    1    2\n", 64011);
    decide_text("    2    3\n    0    1\n    0    1\n    0    1\n", 64011);
    decide_text("    1    0\n", 64011); /* refused: kind 2 with 2; the check answers the plan's own 2 */
    decide_text("    2    0\n", 10);    /* no room: nothing is written, and an empty text is no verdict's */
    slugs();
    return 0;
}
