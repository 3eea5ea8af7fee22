/*
 * What a board's firmware does before it cuts on unwatched: it has the verdict checked, as numbers and as texts, and goes on only at an
 * answer of 0. Each answer is printed as number and place in two columns. The plans are those of document 01, and two with a slug.
 */
#include <stdio.h>
#include <string.h>

#include "hearthtansy.h"

#define COUNT(list) (sizeof(list) / sizeof((list)[0]))

static void print(uint32_t answer)
{
    printf("%5u%5u\n", (unsigned)hearthtansy_number(answer), (unsigned)hearthtansy_place(answer));
}

static void check_texts(const char *plan, const char *verdict)
{
    print(hearthtansy_check_texts((const uint8_t *)plan, strlen(plan), (const uint8_t *)verdict, strlen(verdict)));
}

/* The slugs of a plan that has none: no pointer is null, also where its length is 0. */
static const uint16_t none[] = {0};

/* 01's example: 3 pieces, weak with tabs 0 and 1. */
static const uint16_t ends[] = {0, 1, 0, 1, 1, 2, 1, 2};
static const uint16_t cut[] = {0, 1};

static void weak(void)
{
    static const uint16_t apart[] = {0, 2};
    static const uint16_t swapped[] = {1, 0};
    static const uint16_t unknown[] = {0, 4};
    static const uint16_t three[] = {0, 1, 2};

    print(hearthtansy_check(3, ends, COUNT(ends), none, 0, 1, cut, COUNT(cut)));
    print(hearthtansy_check(3, ends, COUNT(ends), none, 0, 1, apart, COUNT(apart)));     /* leave the sheet in one body: 17 */
    print(hearthtansy_check(3, ends, COUNT(ends), none, 0, 1, cut, 0));                  /* no tab named: 17 */
    print(hearthtansy_check(3, ends, COUNT(ends), none, 0, 1, swapped, COUNT(swapped))); /* not above the one before: 11 at 1 */
    print(hearthtansy_check(3, ends, COUNT(ends), none, 0, 1, unknown, COUNT(unknown))); /* no such tab: 11 at 1 */
    print(hearthtansy_check(3, ends, COUNT(ends), none, 0, 1, three, COUNT(three)));     /* over two tabs: 9 */
    print(hearthtansy_check(3, ends, COUNT(ends), none, 0, 2, cut, COUNT(cut)));         /* no such kind: 9 */
    print(hearthtansy_check(3, ends, COUNT(ends), none, 0, 0, cut, COUNT(cut)));         /* firm with two numbers: 9 */
}

static void refused(void)
{
    static const uint16_t beyond[] = {0, 1, 0, 1, 1, 3, 1, 2};
    static const uint16_t same[] = {0, 1, 0, 1, 1, 2, 2, 2};
    static const uint16_t seven[] = {7, 7};

    print(hearthtansy_check(3, ends, COUNT(ends) - 1, none, 0, 1, cut, COUNT(cut)));   /* an odd count of ends: 1 */
    print(hearthtansy_check(1, ends, COUNT(ends), none, 0, 1, cut, COUNT(cut)));       /* one piece: 2 */
    print(hearthtansy_check(1001, ends, COUNT(ends), none, 0, 1, cut, COUNT(cut)));    /* too many pieces: 2 */
    print(hearthtansy_check(3, beyond, COUNT(beyond), none, 0, 1, cut, COUNT(cut)));   /* 4 at tab 2 */
    print(hearthtansy_check(3, same, COUNT(same), none, 0, 1, cut, COUNT(cut)));       /* 5 at tab 3 */
    print(hearthtansy_check(5, seven, COUNT(seven), none, 0, 1, cut, COUNT(cut)));     /* P10: 4, not 5 */
}

static void firm(void)
{
    static const uint16_t three[] = {0, 1, 0, 1, 0, 1};
    static const uint16_t paths[] = {0, 0, 0, 1, 1, 0, 2, 2, 0};
    static const uint16_t step[] = {0, 0, 0, 1, 1, 0, 3, 2, 0};
    static const uint16_t again[] = {0, 0, 0, 1, 0, 0, 2, 2, 0};
    static const uint16_t piece[] = {0, 0, 0, 1, 1, 5, 2, 2, 0};
    static const uint16_t seven[] = {0, 1, 0, 2, 2, 3, 3, 1, 0, 1, 2, 3};
    static const uint16_t linked[] = {0, 0, 0, 1, 1, 0, 1, 2, 2, 1, 3, 3, 2, 4, 0, 3, 5, 2};
    static const uint16_t eight[] = {0, 1, 0, 1, 0, 2, 2, 1};
    static const uint16_t open[] = {0, 0, 0, 1, 1, 0, 2, 2, 0, 2, 3, 2};

    print(hearthtansy_check(2, three, COUNT(three), none, 0, 0, paths, COUNT(paths)));   /* P4 passes */
    print(hearthtansy_check(2, three, COUNT(three), none, 0, 0, step, COUNT(step)));     /* a step left out: 10 at row 2 */
    print(hearthtansy_check(2, three, COUNT(three), none, 0, 0, again, COUNT(again)));   /* tab 0 twice: 11 at row 1 */
    print(hearthtansy_check(2, three, COUNT(three), none, 0, 0, piece, COUNT(piece)));   /* no end of the tab: 12 at row 1 */
    print(hearthtansy_check(4, seven, COUNT(seven), none, 0, 0, linked, COUNT(linked))); /* P7: 15 at row 5 */
    print(hearthtansy_check(3, eight, COUNT(eight), none, 0, 0, open, COUNT(open)));     /* P8: 16 */
}

static void texts(void)
{
    const char *plan = "    3    4\n    0    1\n    0    1\n    1    2\n    1    2\n";
    const char *verdict = "    1    2\n    0\n    1\n";

    check_texts(plan, verdict);
    check_texts(plan, "    1    2\n    0\n    2\n");                                   /* 17 */
    check_texts(plan, "    2    4\n");                                                 /* the verdict on a refused plan: 9 */
    check_texts(plan, "    1    2\n    0\n    1");                                     /* no line feed at the end: 8 */
    check_texts(plan, "    1    3\n    0\n    1\n    2\n");                            /* a count that no weak verdict has: 8 */
    check_texts("    3    4\n    0    1\n    0    1\n    1    2\n", verdict);          /* a line too few: 7 */
    check_texts("00003    1\n    0    1\n", verdict);                                  /* zeros in front: 7 */
    check_texts("    3    1\n    0    3\n", verdict);                                  /* 4 at tab 0 */
    check_texts(" 1001    0\n", verdict);                                              /* 2 */
    check_texts("    3 4001\n", verdict);                                              /* 3 */
    check_texts("", "");                                                               /* the plan's refusal first: 7 */
}

/* 01's example again with a slug between its pieces, piece 1: with all pieces kept this plan is firm, without piece 1 tabs 0 and 2 part it. */
static const uint16_t around[] = {0, 2, 1, 2, 0, 2, 0, 1, 2, 3, 2, 3, 1, 3};
static const uint16_t slug[] = {1};

static uint32_t check_around(const uint16_t *slugs, size_t count, const uint16_t *tabs, size_t length)
{
    return hearthtansy_check(4, around, COUNT(around), slugs, count, 1, tabs, length);
}

static void slugs(void)
{
    static const uint16_t parts[] = {0, 2};
    static const uint16_t behind[] = {0, 1};
    static const uint16_t before[] = {1, 2};
    static const uint16_t twice[] = {1, 1};
    static const uint16_t beyond[] = {1, 4};
    static const uint16_t most[] = {0, 1, 2};

    print(check_around(slug, COUNT(slug), parts, COUNT(parts)));
    print(check_around(none, 0, parts, COUNT(parts)));               /* no slug: the sheet stays one body: 17 */
    print(check_around(slug, COUNT(slug), behind, COUNT(behind)));   /* tab 1 is the slug's: 11 at 1 */
    print(check_around(slug, COUNT(slug), before, COUNT(before)));   /* the same: 11 at 0 */
    print(check_around(twice, COUNT(twice), parts, COUNT(parts)));   /* not above the slug before: 18 at 1 */
    print(check_around(beyond, COUNT(beyond), parts, COUNT(parts))); /* no such piece: 18 at 1 */
    print(check_around(most, COUNT(most), parts, COUNT(parts)));     /* one piece is kept: 19 */
}

static void slug_records(void)
{
    static const uint16_t three[] = {0, 2, 0, 1, 2, 0, 1, 2, 0, 2};
    static const uint16_t kept[] = {0, 0, 0, 1, 2, 0, 2, 4, 0};
    static const uint16_t falls[] = {0, 0, 0, 1, 1, 0, 2, 4, 0};
    static const uint16_t every[] = {0, 0, 0, 1, 2, 0, 2, 4, 0, 3, 1, 0, 3, 3, 1};

    print(hearthtansy_check(3, three, COUNT(three), slug, COUNT(slug), 0, kept, COUNT(kept)));   /* P4 around a slug passes */
    print(hearthtansy_check(3, three, COUNT(three), slug, COUNT(slug), 0, falls, COUNT(falls))); /* tab 1 is the slug's: 11 at row 1 */
    print(hearthtansy_check(3, three, COUNT(three), slug, COUNT(slug), 0, every, COUNT(every))); /* a row for each tab: 9 */
    print(hearthtansy_check(3, three, COUNT(three), none, 0, 0, every, COUNT(every)));           /* no slug: 16, piece 1 has two tabs */
}

#define AROUND "    0    2\n    1    2\n    0    2\n    0    1\n    2    3\n    2    3\n    1    3\n"

static void slug_texts(void)
{
    const char *plan = "    4    7    1\n" AROUND "    1\n";
    const char *verdict = "    1    2\n    0\n    2\n";

    check_texts(plan, verdict);
    check_texts("    4    7\n" AROUND, verdict);                          /* no slug: 17 */
    check_texts("    4    7    0\n" AROUND, verdict);                     /* a count of no slug is left out: 7 */
    check_texts("    4    7    5\n" AROUND "    1\n", verdict);           /* more slugs than pieces: 7 */
    check_texts("    4    7\n" AROUND "    1\n", verdict);                /* a line too many: 7 */
    check_texts("    4    7    2\n" AROUND "    1\n", verdict);           /* a line too few: 7 */
    check_texts("    4    7    1\n" AROUND "    1    2\n", verdict);      /* two numbers on the slug's line: 7 */
    check_texts("    4    7    2\n" AROUND "    1\n    1\n", verdict);    /* 18 at 1 */
    check_texts("    4    7    3\n" AROUND "    0\n    1\n    2\n", ""); /* 19 */
    check_texts(plan, "    2   18\n");                                    /* the verdict on a refused plan: 9 */
    check_texts(plan, "    2   20\n");                                    /* no plan is refused by that: 8 */
}

int main(void)
{
    weak();
    refused();
    firm();
    texts();
    slugs();
    slug_records();
    slug_texts();
    return 0;
}
