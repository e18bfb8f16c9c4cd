/* Settles two table sheets, relates them, or asks whether the rule on a sheet keeps a text:
 *
 *     example settle FIRST SECOND
 *     example relate FIRST SECOND
 *     example keeps table|nfa SHEET TEXT
 *
 * FIRST, SECOND and SHEET are files. It prints one line, and its status is 0 if that was written, refusals among them.
 */
#include "lanthuvel.h"

#include <stdio.h>
#include <stdlib.h>
#include <string.h>

/* A largest sheet has 20,610 bytes. A longer file is refused for its length, and so one byte more of it is enough. */
enum { MOST_BYTES = 20610 + 1, MOST_TO_SETTLE = 2048, MOST_TO_RELATE = 4096 };

struct sheet {
    uint8_t bytes[MOST_BYTES];
    size_t length;
};

static int fail(const char *what)
{
    fprintf(stderr, "example: %s\n", what);
    return EXIT_FAILURE;
}

/* Whether a file could be read. */
static int read_sheet(const char *name, struct sheet *sheet)
{
    FILE *file = fopen(name, "rb");
    int failed;

    if (file == NULL) {
        return 0;
    }
    sheet->length = fread(sheet->bytes, 1, sizeof sheet->bytes, file);
    failed = ferror(file);
    return fclose(file) == 0 && !failed;
}

static const char *side_name(uint8_t side)
{
    switch (side) {
    case LANTHUVEL_FIRST:
        return "first ";
    case LANTHUVEL_SECOND:
        return "second ";
    case LANTHUVEL_PAIR:
        return "pair ";
    default:
        return "";
    }
}

/* The line of a refusal. Want of memory is none: it ends the program with a message. */
static int tell_refusal(const struct lanthuvel_refusal *refusal)
{
    if (refusal->status == LANTHUVEL_OUT_OF_MEMORY) {
        return fail("there is no memory");
    }
    if (refusal->status == LANTHUVEL_NO_SUCH_LETTER) {
        printf("unknown letter at %zu\n", refusal->place);
    } else {
        printf("refused %s%d\n", side_name(refusal->side), refusal->status);
    }
    return EXIT_SUCCESS;
}

static void print_word(const uint8_t *word, size_t length)
{
    size_t i;

    if (length == 0) {
        putchar('-');
    }
    for (i = 0; i < length; i++) {
        putchar("abcdefghijklmnop"[word[i]]);
    }
}

static int settle(const struct sheet *first, const struct sheet *second)
{
    uint8_t word[MOST_TO_SETTLE];
    struct lanthuvel_settlement settlement;
    struct lanthuvel_refusal refusal;

    if (lanthuvel_settle(first->bytes, first->length, second->bytes, second->length, word, sizeof word, &settlement, &refusal)
        != LANTHUVEL_ANSWERED) {
        return tell_refusal(&refusal);
    }
    if (settlement.number == LANTHUVEL_SAME) {
        printf("same %zu\n", settlement.joins);
        return EXIT_SUCCESS;
    }
    printf("differ %s", side_name(settlement.kept_by));
    print_word(word, settlement.length);
    printf(" %zu\n", settlement.joins);
    return EXIT_SUCCESS;
}

static void print_relation(const struct lanthuvel_relation *relation, const uint8_t *only_first, const uint8_t *only_second)
{
    switch (relation->number) {
    case LANTHUVEL_EQUAL:
        printf("equal");
        break;
    case LANTHUVEL_FIRST_WITHIN:
        printf("first within second ");
        print_word(only_second, relation->only_second);
        break;
    case LANTHUVEL_SECOND_WITHIN:
        printf("second within first ");
        print_word(only_first, relation->only_first);
        break;
    default:
        printf("neither ");
        print_word(only_first, relation->only_first);
        putchar(' ');
        print_word(only_second, relation->only_second);
        break;
    }
    putchar('\n');
}

static int relate(const struct sheet *first, const struct sheet *second)
{
    uint8_t only_first[MOST_TO_RELATE], only_second[MOST_TO_RELATE];
    struct lanthuvel_relation relation;
    struct lanthuvel_refusal refusal;

    if (lanthuvel_relate(first->bytes, first->length, second->bytes, second->length, only_first, sizeof only_first,
            only_second, sizeof only_second, &relation, &refusal)
        != LANTHUVEL_ANSWERED) {
        return tell_refusal(&refusal);
    }
    print_relation(&relation, only_first, only_second);
    return EXIT_SUCCESS;
}

static int keeps(const char *kind, const struct sheet *sheet, const char *text)
{
    const uint8_t *letters = (const uint8_t *)text;
    struct lanthuvel_refusal refusal;
    uint8_t kept, status;

    if (strcmp(kind, "table") == 0) {
        status = lanthuvel_table_keeps(sheet->bytes, sheet->length, letters, strlen(text), &kept, &refusal);
    } else {
        status = lanthuvel_nfa_keeps(sheet->bytes, sheet->length, letters, strlen(text), &kept, &refusal);
    }
    if (status != LANTHUVEL_ANSWERED) {
        return tell_refusal(&refusal);
    }
    puts(kept ? "kept" : "dropped");
    return EXIT_SUCCESS;
}

static int two_sheets(const char *first_name, const char *second_name, int (*use)(const struct sheet *, const struct sheet *))
{
    struct sheet first, second;

    if (!read_sheet(first_name, &first) || !read_sheet(second_name, &second)) {
        return fail("a sheet cannot be read");
    }
    return use(&first, &second);
}

static int one_sheet(const char *kind, const char *name, const char *text)
{
    struct sheet sheet;

    if (!read_sheet(name, &sheet)) {
        return fail("the sheet cannot be read");
    }
    return keeps(kind, &sheet, text);
}

static int run(int count, char **words)
{
    if (count == 4 && strcmp(words[1], "settle") == 0) {
        return two_sheets(words[2], words[3], settle);
    }
    if (count == 4 && strcmp(words[1], "relate") == 0) {
        return two_sheets(words[2], words[3], relate);
    }
    if (count == 5 && strcmp(words[1], "keeps") == 0 && (strcmp(words[2], "table") == 0 || strcmp(words[2], "nfa") == 0)) {
        return one_sheet(words[2], words[3], words[4]);
    }
    return fail("usage: example settle|relate FIRST SECOND, or example keeps table|nfa SHEET TEXT");
}

int main(int count, char **words)
{
    int status = run(count, words);

    if (fflush(stdout) != 0 || ferror(stdout)) {
        return fail("the line cannot be written");
    }
    return status;
}
