/*
 * What a program does for a customer with a weak plan: it asks which pieces still hold together, as numbers and as text, and says so in
 * sentences. It uses a weak plan, the same with a slug, refused ones, a table with one number too few and a text with one byte too few.
 */
#include <stdio.h>
#include <string.h>

#include "hearthtansy.h"
#include "hearthtansy_writer.h"

#define COUNT(list) (sizeof(list) / sizeof((list)[0]))
#define MOST 6
#define BEHIND 999
#define TABS                                                                   \
    "    0    2\n    0    2\n    2    4\n    2    4\n    0    4\n    0    4\n" \
    "    1    3\n    1    3\n    1    3\n    0    1\n    3    4\n    4    5\n"

static int is_slug(uint16_t piece, const uint16_t *slugs, size_t count)
{
    for (size_t i = 0; i < count; i++)
        if (slugs[i] == piece)
            return 1;
    return 0;
}

/* The groups of a plan with slugs, lent `space` numbers; what stood in the table before is BEHIND. */
static void group_slugs(uint16_t pieces, const uint16_t *ends, size_t length, const uint16_t *slugs, size_t count, size_t space)
{
    uint16_t table[MOST + 1];
    uint32_t answer;

    for (size_t i = 0; i < COUNT(table); i++)
        table[i] = BEHIND;
    answer = hearthtansy_groups(pieces, ends, length, slugs, count, table, space);
    if (answer != 0) {
        printf("Refused by %u at place %u; ", (unsigned)hearthtansy_number(answer), (unsigned)hearthtansy_place(answer));
        printf("the first number of the table is still %u.\n", (unsigned)table[0]);
        return;
    }
    for (uint16_t piece = 0; piece < pieces; piece++) {
        if (is_slug(piece, slugs, count))
            printf("Piece %u falls on purpose; its number in the table is %u.\n", (unsigned)piece, (unsigned)table[piece]);
        else if (table[piece] == piece)
            printf("Piece %u is the lowest of its group.\n", (unsigned)piece);
        else
            printf("Piece %u holds together with piece %u.\n", (unsigned)piece, (unsigned)table[piece]);
    }
    printf("The number behind the groups is still %u.\n", (unsigned)table[pieces]);
}

/* The same of a plan without slugs. */
static void group(uint16_t pieces, const uint16_t *ends, size_t length, size_t space)
{
    static const uint16_t none[] = {0}; /* no pointer is null, also where its length is 0 */

    group_slugs(pieces, ends, length, none, 0, space);
}

/* The same of a plan text, lent `space` bytes. */
static void group_text(const char *plan, size_t space)
{
    static uint8_t text[11000];
    size_t length = hearthtansy_groups_text((const uint8_t *)plan, strlen(plan), text, space);

    if (length == 0)
        printf("The text has more than %zu bytes; nothing is written.\n", space);
    else
        printf("The text has %zu bytes:\n", length);
    fwrite(text, 1, length, stdout);
}

int main(void)
{
    /* 0, 2 and 4 hold together, each joined to each other by two tabs, and so do 1 and 3, by three; two tabs lead from one group to the other.
       5 hangs on one tab. */
    static const uint16_t ends[] = {0, 2, 0, 2, 2, 4, 2, 4, 0, 4, 0, 4, 1, 3, 1, 3, 1, 3, 0, 1, 3, 4, 4, 5};
    static const uint16_t same[] = {0, 1, 2, 2};
    static const uint16_t slug[] = {4}; /* then 0 and 2 are joined by two tabs alone, and 5 by none */
    static const uint16_t beyond[] = {4, 6};
    const char *plan = "    6   12\n" TABS;

    group(6, ends, COUNT(ends), MOST + 1);
    group(3, same, COUNT(same), MOST + 1); /* both ends of tab 1 are the same: 5 at 1 */
    group(6, ends, COUNT(ends), 5);        /* five numbers for six pieces: 6 */
    group_text(plan, 11000);
    group_text("    3    2\n    0    1\n    2    2\n", 11000);
    group_text(plan, 65); /* one byte too few */
    group_slugs(6, ends, COUNT(ends), slug, COUNT(slug), MOST + 1);
    group_slugs(6, ends, COUNT(ends), beyond, COUNT(beyond), MOST + 1); /* no piece 6: 18 at 1 */
    group_slugs(6, ends, COUNT(ends), slug, COUNT(slug), 5);            /* a number for the slug, too: 6 */
    group_text("    6   12    1\n" TABS "    4\n", 55);
    group_text("    6   12    2\n" TABS "    4\n    6\n", 55);
    return 0;
}
