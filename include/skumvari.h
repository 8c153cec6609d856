/* skumvari.h: the proved intake of ICM 1.1 interconnect models and its questions, for C and everything that can call C.
 *
 * Link target/staticlib/libskumvari.a, which hosts/archive makes for the machine at hand (x86-64 or Arm Linux).
 *
 * Every slice is a pointer and a length in elements. A pointer is never null and is aligned for its element, for a length of 0 too; slices
 * that a function writes overlap no other slice of the call, and nobody else touches a slice while the call runs. That is all that a caller
 * owes: every text, every table and every number is taken, and what is wrong with them is told in the answer. No function keeps a pointer,
 * allocates, or has state of its own, so calls on different slices may run at the same time.
 *
 * Only the three functions at the end, skumvari_.._unjudged, ask for more: a table that is known to be sound. They are
 * fast, and not for every caller; read what stands above them.
 *
 * An answer is written into the words that the caller lends, in the layout told at each function. A function returns false, and writes
 * no answer, where these are too few; more are left as they were. The numbers of refusal are those of enum skumvari_number below. */
#ifndef SKUMVARI_H
#define SKUMVARI_H

#include <stdbool.h>
#include <stddef.h>
#include <stdint.h>
#include <string.h>

#ifdef __cplusplus
extern "C" {
#endif

/* How many words an answer has: of the intake, an entry, a whole matrix and a double, of a pair of doubles, and of a walk. */
#define SKUMVARI_ANSWER_WORDS 4
#define SKUMVARI_PAIR_WORDS 5
#define SKUMVARI_WALK_WORDS 13

/* The words of an answer. The first is 1 where what was asked for is given, and 0 where it is refused: then the number and the line of the
 * refusal follow (line 0 where no line is to blame), and every other word is 0. Of a double that is not drawn, which is no refusal, all words are 0. */
enum skumvari_answer {
    SKUMVARI_GIVEN = 0,
    SKUMVARI_NUMBER = 1,
    SKUMVARI_LINE = 2,
    SKUMVARI_WORD = 3 /* intake: words used; entry: the value word; whole matrix: N; double: its bits */
};

/* The words of a pair's answer; the first three as above. */
enum skumvari_pair_answer {
    SKUMVARI_FREQUENCY_BITS = 3,
    SKUMVARI_VALUE_BITS = 4
};

/* The words of a walk's answer; the first three as above. */
enum skumvari_walk_answer {
    SKUMVARI_WALK_DONE = 3, /* 1 at the end of the path: then the step's words are 0 and the place is the one handed in */
    SKUMVARI_STEP_KIND = 4, /* 0 end, 1 section, 2 fork, 3 endfork */
    SKUMVARI_STEP_TARGET = 5, /* index of the end's map or of the section; else 0 */
    SKUMVARI_STEP_AMOUNT = 6, /* of a section: Mult (Lumped), or Len as a value word (Distributed); else 0 */
    SKUMVARI_STEP_SIDE = 7, /* of an end: where the side's bytes start in the text, and how many they are; else 0 0 */
    SKUMVARI_STEP_SIDE_LENGTH = 8,
    SKUMVARI_STEP_LINE = 9,
    SKUMVARI_NEXT_MODEL = 10, /* the place to hand in next */
    SKUMVARI_NEXT_STEP = 11,
    SKUMVARI_NEXT_DEPTH = 12
};

/* The kinds of matrix: resistance, inductance, conductance, capacitance. */
enum skumvari_kind { SKUMVARI_R = 0, SKUMVARI_L = 1, SKUMVARI_G = 2, SKUMVARI_C = 3 };

/* The numbers of refusal: 1 to 27 and 29 of the intake, 30 and 31 of the questions, which have line 0. */
enum skumvari_number {
    SKUMVARI_NUMBER_SIZE = 1, /* text over 1,048,576 bytes */
    SKUMVARI_NUMBER_BYTE = 2, /* a byte other than 0x20 to 0x7E, TAB, LF, or CR right before LF */
    SKUMVARI_NUMBER_LONG = 3, /* a line over 120 characters without its terminator */
    SKUMVARI_NUMBER_UNENDED = 4, /* the last line has no LF */
    SKUMVARI_NUMBER_HEADER = 5, /* no [Begin Header] line */
    SKUMVARI_NUMBER_KEYWORD = 6, /* a bad bracket */
    SKUMVARI_NUMBER_UNKNOWN = 7, /* a keyword that ICM 1.1 does not have */
    SKUMVARI_NUMBER_LATER = 8, /* a keyword that is not taken yet */
    SKUMVARI_NUMBER_PLACE = 9, /* a keyword misplaced or repeated, or a required part missing when its block closes */
    SKUMVARI_NUMBER_END = 10, /* the text stops before [End] */
    SKUMVARI_NUMBER_ARGUMENT = 11, /* an argument missing, surplus or not allowed */
    SKUMVARI_NUMBER_LINE = 12, /* another line that its place does not take */
    SKUMVARI_NUMBER_NUMBER = 13, /* a malformed number or integer */
    SKUMVARI_NUMBER_RANGE = 14, /* a number or integer out of bounds */
    SKUMVARI_NUMBER_FORK = 15, /* in a path: nesting over 8, Endfork with none open, or closing with one open */
    SKUMVARI_NUMBER_SHAPE = 16, /* a matrix of the wrong shape, or more pins than a map's grid has places */
    SKUMVARI_NUMBER_LIMIT = 17, /* a count above its bound, at the line that passes it */
    SKUMVARI_NUMBER_ROOM = 18, /* the table is shorter than the words needed */
    SKUMVARI_NUMBER_TWICE = 19, /* the second of one name within models, maps, sections, the list or one map's pins */
    SKUMVARI_NUMBER_LIST = 20, /* a model not listed, or listed without one */
    SKUMVARI_NUMBER_NOMAP = 21, /* no pin map of that name on a later line */
    SKUMVARI_NUMBER_SIDE = 22, /* two ends of a path on one map, with Side lacking at either or the same */
    SKUMVARI_NUMBER_NOSECTION = 23, /* no such section */
    SKUMVARI_NUMBER_METHOD = 24, /* Mult with Distributed, or Len with Lumped */
    SKUMVARI_NUMBER_KIND = 25, /* an SLM model's step over a section with a form that is not Diagonal_matrix */
    SKUMVARI_NUMBER_COUNT = 26, /* a step whose pins or conductors differ from the pins of the path's first map */
    SKUMVARI_NUMBER_UNUSED = 27, /* a section that no step uses */
    SKUMVARI_NUMBER_SGR = 29, /* SGR in a model that is not SLM_general */
    SKUMVARI_NUMBER_TABLE = 30, /* a question over an unsound table */
    SKUMVARI_NUMBER_NOSUCH = 31 /* section, kind, row, column or walk place out of range */
};

/* A value word is 256 m + 2 (k + 64) + s for the number m times ten to the k, negative where s is 1; zero is 128. */
#define SKUMVARI_VALUE_SIZE(word) ((uint64_t)(word) / 256)
#define SKUMVARI_VALUE_EXPONENT(word) ((int)((uint64_t)(word) % 256 / 2) - 64)
#define SKUMVARI_VALUE_NEGATIVE(word) ((int)((uint64_t)(word) % 2))

/* How many words a table has that is long enough for every text. */
size_t skumvari_table_words(void);

/* Reads a text into a table. Answer: accepted, number, line, words used. Refused, the table is all zeros, and so it is with too few words for
 * the answer; accepted, it holds seven parts and then zeros. Each part is a count and then so many records, in the text's order:
 *
 *   models    name start, name length, type (0 SLM_general, 1 SLM_quiescent, 2 MLM), first step, steps
 *   steps     kind, target, amount, side start, side length, line (as in a walk's answer)
 *   maps      name start, name length, order (0 Row_ordered, 1 Column_ordered, 2 Un_ordered), rows, columns, first pin, pins
 *             (the intake leaves at least one pin a map, and at most rows times columns in an ordered one: places may be missing)
 *   pins      name start, name length
 *   sections  name start, name length, method (0 Lumped, 1 Distributed), N, then R, L, G, C: index of the matrix plus 1, or 0
 *   matrices  form (0 diagonal, 1 banded, 2 sparse, 3 full), bandwidth, first value, values, line
 *   values    row, column, value word
 *
 * Indexes and offsets count from 0, lines, rows and columns from 1.
 *
 * It needs a little more than 400 KB of the caller's stack (391,680 bytes of it hold records while the text is read), for a short text
 * too: call it in a thread whose stack has 512 KiB or more. */
bool skumvari_intake(const uint8_t *text, size_t text_length, uint64_t *table, size_t table_length, uint64_t *answer, size_t answer_length);

/* Whether a table is sound for a text. */
bool skumvari_sound(const uint8_t *text, size_t text_length, const uint64_t *table, size_t table_length);

/* One entry of a section's matrix, by the section's index, the kind, the row and the column (1 to N). Answer: found, number, line, value word.
 * An entry that is not written, or of a kind that is not given, is zero. */
bool skumvari_entry(const uint8_t *text, size_t text_length, const uint64_t *table, size_t table_length, uint64_t section, uint64_t kind,
                    uint64_t row, uint64_t column, uint64_t *answer, size_t answer_length);

/* One step from a place in a model's path; a walk starts at the model's index, step 0, depth 0. Answer: enum skumvari_walk_answer. */
bool skumvari_walk(const uint8_t *text, size_t text_length, const uint64_t *table, size_t table_length, uint64_t model, uint64_t step,
                   uint64_t depth, uint64_t *answer, size_t answer_length);

/* Every entry of a section's matrix of a kind, row by row, into values of at least N times N words; the rest of them is left as it was. Answer:
 * found, number, line, N. Found 0 with number 0 says that the values are fewer than N times N; they are left as they were, and N is told. */
bool skumvari_matrix(const uint8_t *text, size_t text_length, const uint64_t *table, size_t table_length, uint64_t section, uint64_t kind,
                     uint64_t *values, size_t values_length, uint64_t *answer, size_t answer_length);

/* The double of a value word, for drawing: m times ten to the k, rounded once; where that is a whole number below two to the 53 it is the number
 * itself, and zero is plus zero. Answer: drawn, 0, 0, the double's bits. All words of the answer are 0 where `word` is outside: k is not from -22 to 22,
 * or it is no value word. Then there is no number to draw; only the first word of the answer tells this from zero. */
bool skumvari_double(uint64_t word, uint64_t *answer, size_t answer_length);

/* The doubles of two value words, a frequency and a value. Answer: drawn, 0, 0, and the bits of each (enum skumvari_pair_answer). All words of the answer
 * are 0 if either is outside. */
bool skumvari_pair(uint64_t frequency, uint64_t value, uint64_t *answer, size_t answer_length);

/* The listing of an accepted text and its table, as bytes; `words` is the words used that the intake answered with.
 * From the start of `out` as much of it is written as there is room for, and the number of these bytes is returned.
 * Where it is `out_length` the listing may be longer: then the caller lends more. What is behind the bytes is left as it
 * was, and no zero is put there. Every text and table is taken: no word is trusted, and a table whose counts do not fit
 * shows no records. */
size_t skumvari_list(const uint8_t *text, size_t text_length, const uint64_t *table, size_t table_length, size_t words, uint8_t *out,
                     size_t out_length);

/* ---- Questions without judging ----
 *
 * skumvari_entry, skumvari_walk and skumvari_matrix judge the whole table in every call, and a walk counts its depth
 * from the start of the model in every step. The three functions below answer the same, word for word, and do neither:
 * an entry is a search in its matrix, and a step takes the same time at every place, whatever the length of the table.
 *
 * The caller has to know what they do not look at:
 *   - The table is sound for the text: skumvari_sound is true of the two. The table that an accepted skumvari_intake
 *     left is sound for the text that was read, which is proved, as long as nobody has changed a byte of the one or a
 *     word of the other. So are its words used, without the zeros behind them.
 *   - Of a walk, the place is in range: a model that is there with step 0 and depth 0, or the place that a step over
 *     the same text and table has answered with.
 * Where this does not hold nothing is promised, not even that only the lent slices are read and written. So they are no
 * entry points in the sense of the first promise, which takes every table: ask them over a text and a table that are
 * kept together, where nobody else can write, and never over a table that comes from outside. Section, kind, row and
 * column are judged here too: what is not there is refused by 31. */
bool skumvari_entry_unjudged(const uint8_t *text, size_t text_length, const uint64_t *table, size_t table_length, uint64_t section,
                             uint64_t kind, uint64_t row, uint64_t column, uint64_t *answer, size_t answer_length);
bool skumvari_walk_unjudged(const uint8_t *text, size_t text_length, const uint64_t *table, size_t table_length, uint64_t model,
                            uint64_t step, uint64_t depth, uint64_t *answer, size_t answer_length);
bool skumvari_matrix_unjudged(const uint8_t *text, size_t text_length, const uint64_t *table, size_t table_length, uint64_t section,
                              uint64_t kind, uint64_t *values, size_t values_length, uint64_t *answer, size_t answer_length);

/* The double that has these bits. */
static inline double skumvari_double_of_bits(uint64_t bits)
{
    double number;
    memcpy(&number, &bits, sizeof number);
    return number;
}

#ifdef __cplusplus
}
#endif

#endif
