/* Lanthuvel from C: settling two table sheets, relating them, and asking whether the rule on a sheet keeps a text.
 *
 * Link with libcapi.a and with the part of the Rattle kit that calls malloc and free; docs/CAPI.md gives the command.
 *
 * All that crosses is numbers and slices of bytes; a slice is a pointer and a length. A pointer may be null where the length is 0. The
 * pointers to the numbers that a call writes are not null. What a call writes lies apart from all else that it is given. No call keeps a
 * pointer, and none has a state: calls on memory of their own may run side by side.
 *
 * A call answers a status: 0 if it was answered, and otherwise the number of the refusal that applies first. It writes the refusal in either case,
 * with zeros if it was answered. A call that is refused writes nothing else: buffers, and the numbers of the answer, are as before.
 */
#ifndef LANTHUVEL_H
#define LANTHUVEL_H

#include <stddef.h>
#include <stdint.h>

#ifdef __cplusplus
extern "C" {
#endif

/* Statuses: the numbers of the table of refusals (docs/REFUSALS.md), and two that stand outside of it. */
enum lanthuvel_status {
    LANTHUVEL_ANSWERED = 0,
    LANTHUVEL_TRUNCATED = 1,
    LANTHUVEL_WRONG_LENGTH = 2,
    LANTHUVEL_TARGET_OUT_OF_RANGE = 3,
    LANTHUVEL_PADDING_SET = 4,
    LANTHUVEL_LETTERS_DIFFER = 5,
    LANTHUVEL_TOO_MANY_STATES = 6,
    LANTHUVEL_NO_SUCH_STATE = 7,
    LANTHUVEL_TOO_FEW_CELLS = 8,
    LANTHUVEL_BUFFER_TOO_SHORT = 9,
    LANTHUVEL_NO_SUCH_LETTER = 10,
    LANTHUVEL_TOO_MANY_NFA_STATES = 11,
    LANTHUVEL_BAD_LINE = 12,
    LANTHUVEL_OUT_OF_MEMORY = 255
};

/* Which layer refuses. */
enum lanthuvel_layer {
    LANTHUVEL_SHEET = 1,
    LANTHUVEL_RULE = 2,
    LANTHUVEL_COMBINED = 3,
    LANTHUVEL_REGISTER = 4,
    LANTHUVEL_SEARCH = 5,
    LANTHUVEL_CATALOGUE = 6
};

/* Which of two sheets a number speaks of. */
enum lanthuvel_side {
    LANTHUVEL_NEITHER = 0,
    LANTHUVEL_FIRST = 1,
    LANTHUVEL_SECOND = 2,
    LANTHUVEL_PAIR = 3
};

/* A refusal: which one, by which layer, on which side, and the place and the letter that it names. All are 0 if the call was answered. */
struct lanthuvel_refusal {
    size_t place;
    size_t letter;
    uint8_t status;
    uint8_t layer;
    uint8_t side;
};

enum lanthuvel_settlement_number {
    LANTHUVEL_SAME = 0,
    LANTHUVEL_DIFFER = 1
};

/* A settlement. Same: both rules keep the same words, and so many joins were made; side and length are 0. Differ: the first word that only one of
 * them keeps has this length, the rule on this side keeps it, and so many joins were tried. */
struct lanthuvel_settlement {
    size_t joins;
    size_t length;
    uint8_t number;
    uint8_t kept_by;
};

enum lanthuvel_relation_number {
    LANTHUVEL_EQUAL = 0,
    LANTHUVEL_FIRST_WITHIN = 1,
    LANTHUVEL_SECOND_WITHIN = 2,
    LANTHUVEL_NEITHER_WITHIN = 3
};

/* A relation. Equal: both rules keep the same words. First within: the second keeps all that the first keeps, and more. Second within: the reverse.
 * Neither: each keeps a word that the other drops. The lengths are those of the first word that only the first rule keeps, and of the first that only the
 * second keeps; a length is 0 where there is no such word. */
struct lanthuvel_relation {
    size_t only_first;
    size_t only_second;
    uint8_t number;
};

/* Settles the rules on two table sheets. If they differ, the word stands at the beginning of the buffer, a byte for each letter, 0 to 15. The buffer has
 * to have as many bytes as the two rules have states together (9, of the register): 2,048 always suffice. */
uint8_t lanthuvel_settle(
    const uint8_t *first, size_t first_length,
    const uint8_t *second, size_t second_length,
    uint8_t *word, size_t word_length,
    struct lanthuvel_settlement *settlement,
    struct lanthuvel_refusal *refusal);

/* Relates the rules on two table sheets. A word that only the first rule keeps stands at the beginning of the first buffer, and one that only the second keeps
 * at the beginning of the second, a byte for each letter. Each buffer has to have as many bytes as there are pairs of states (9, of the search,
 * on its side): 4,096 always suffice. */
uint8_t lanthuvel_relate(
    const uint8_t *first, size_t first_length,
    const uint8_t *second, size_t second_length,
    uint8_t *first_word, size_t first_word_length,
    uint8_t *second_word, size_t second_word_length,
    struct lanthuvel_relation *relation,
    struct lanthuvel_refusal *refusal);

/* Opens a table sheet, and asks whether its rule keeps a text of the letters a to p: 1 if it does, 0 if not. */
uint8_t lanthuvel_table_keeps(
    const uint8_t *sheet, size_t sheet_length,
    const uint8_t *text, size_t text_length,
    uint8_t *kept,
    struct lanthuvel_refusal *refusal);

/* The same for the sheet of a nondeterministic automaton. */
uint8_t lanthuvel_nfa_keeps(
    const uint8_t *sheet, size_t sheet_length,
    const uint8_t *text, size_t text_length,
    uint8_t *kept,
    struct lanthuvel_refusal *refusal);

#ifdef __cplusplus
}
#endif

#endif
