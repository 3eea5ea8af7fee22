/*
 * What a program does for an operator with a weak plan: it says which pieces would fall once the tabs of the verdict are lost, by the marks that
 * come with the verdict and as text. It uses a weak plan with slugs whose marks lie in three words, a sheet that is parted already, a firm plan,
 * refused ones and a text with one byte too few.
 */
#include <inttypes.h>
#include <stdio.h>
#include <string.h>

#include "hearthtansy_writer.h"

#define COUNT(list) (sizeof(list) / sizeof((list)[0]))
#define MOST 1000
#define SPACE (3 * MOST)
#define BEFORE UINT64_C(0x5a5a5a5a5a5a5a5a)

/* A plan: its pieces, the ends of its tabs and its slugs. */
struct plan {
    uint16_t pieces;
    uint16_t ends[2 * MOST];
    size_t length;
    uint16_t slugs[4];
    size_t count;
};

/* Joins two pieces by some tabs more. */
static void tie(struct plan *plan, uint16_t a, uint16_t b, int tabs)
{
    for (int i = 0; i < tabs; i++) {
        plan->ends[plan->length++] = a;
        plan->ends[plan->length++] = b;
    }
}

/* How many words are as they were. */
static size_t unchanged(const uint64_t *fallen)
{
    size_t words = 0;

    for (size_t i = 0; i < HEARTHTANSY_FALLEN_WORDS; i++)
        words += fallen[i] == BEFORE;
    return words;
}

static void print_marks(const struct plan *plan, const uint64_t *fallen)
{
    for (uint16_t piece = 0; piece < plan->pieces; piece++)
        if (hearthtansy_is_fallen(fallen, piece))
            printf("    piece %u\n", (unsigned)piece);
    for (size_t i = 0; i < HEARTHTANSY_FALLEN_WORDS; i++)
        if (fallen[i] != 0)
            printf("    word %zu: %016" PRIx64 "\n", i, fallen[i]);
}

/* The verdict on a plan and the pieces that would fall, lent `space` numbers; each word is BEFORE at first. */
static void decide(const struct plan *plan, size_t space)
{
    static uint16_t rows[SPACE];
    uint64_t fallen[HEARTHTANSY_FALLEN_WORDS];
    uint16_t count;
    uint64_t verdict;

    for (size_t i = 0; i < COUNT(fallen); i++)
        fallen[i] = BEFORE;
    verdict = hearthtansy_verdict(plan->pieces, plan->ends, plan->length, plan->slugs, plan->count, rows, space, fallen, &count);
    printf("Verdict %u %u %u %u, ", (unsigned)hearthtansy_kind(verdict), (unsigned)hearthtansy_count(verdict),
           (unsigned)hearthtansy_first(verdict), (unsigned)hearthtansy_second(verdict));
    printf("pieces that would fall: %u, words as they were: %zu\n", (unsigned)count, unchanged(fallen));
    if (hearthtansy_kind(verdict) == 1)
        print_marks(plan, fallen);
}

/* The text of the pieces that would fall, of a plan text, lent `space` bytes. */
static void decide_text(const char *plan, size_t space)
{
    static uint8_t text[6000];
    size_t length = hearthtansy_fallen_text((const uint8_t *)plan, strlen(plan), text, space);

    if (length == 0)
        printf("The text has more than %zu bytes; nothing is written.\n", space);
    else
        printf("The text has %zu bytes:\n", length);
    fwrite(text, 1, length, stdout);
}

/*
 * 130 pieces, of which 0 and 64 are slugs. Pieces 63, 65, 127 and 128 hold together, and hang on the others by one tab at 5 and one at 70: their
 * marks are the last bit of word 0, two bits of word 1 and the first of word 2. The tabs of slug 64 hold nothing.
 */
static void draw(struct plan *plan)
{
    plan->pieces = 130;
    plan->slugs[plan->count++] = 0;
    plan->slugs[plan->count++] = 64;
    tie(plan, 5, 63, 1);
    tie(plan, 64, 63, 3);
    tie(plan, 1, 64, 3);
    for (uint16_t piece = 2; piece < 130; piece++)
        if (piece != 63 && piece != 64 && piece != 65 && piece != 127 && piece != 128)
            tie(plan, 1, piece, 3);
    tie(plan, 63, 65, 3);
    tie(plan, 65, 127, 3);
    tie(plan, 127, 128, 3);
    tie(plan, 128, 70, 1);
}

static void on_numbers(void)
{
    static struct plan plan;
    static struct plan parted = {4, {0, 2}, 2, {0}, 0};

    draw(&plan);
    decide(&plan, SPACE); /* weak: the tabs at 5 and at 70 */
    decide(&plan, 0);     /* refused: 6, no room for a record */
    tie(&plan, 90, 127, 1);
    decide(&plan, SPACE); /* firm: a third tab holds the four */
    tie(&plan, 129, 130, 1);
    decide(&plan, SPACE);   /* refused: 4, there is no piece 130 */
    decide(&parted, SPACE); /* weak with no tab named: 1 and 3 are joined to nothing */
}

static void on_texts(void)
{
    const char *weak = "    4    6    1\n    0    2\n    2    0\n    2    3\n    2    3\n    2    3\n    1    3\n    1\n";

    decide_text(weak, 6000); /* tabs 0 and 1 alone hold 2 and 3; 1 is a slug */
    decide_text(weak, 17);   /* one byte too few */
    decide_text("    2    3\n    0    1\n    0    1\n    0    1\n", 6000); /* firm */
    decide_text("    2    1\n    1    1\n", 6000);                         /* refused: 5 */
}

int main(void)
{
    on_numbers();
    on_texts();
    return 0;
}
