/* test.c: checks that a C program gets from skumvari.h what the header and the paper promise; one line for each failed check, `ok` at the end.
 * All but the doubles is asked about the paper's example, whose text and numbers stand in the paper's part "Listing". */
#include <stdio.h>
#include <stdlib.h>
#include <string.h>

#include "skumvari.h"

#define USED 92 /* words of the example's table */
#define GUARD UINT64_C(0xA5A5A5A5A5A5A5A5) /* what memory holds that a call must leave alone */

static const char example[] =
    "[Begin Header]\n" "[ICM Ver] 1.1\n" "[File Name] t.icm\n" "[File Rev] 0.1\n" "[End Header]\n"
    "[Begin ICM Family] D\n" "[Manufacturer] O\n" "[ICM Model List]\n" "A\n" "[Begin ICM Model] A\n"
    "ICM_model_type MLM\n" "[Tree Path Description]\n" "Model_pinmap P\n" "Section Mult=2 S\n" "Fork\n"
    "Section Mult=1 S\n" "Endfork\n" "Model_pinmap Q\n" "[End ICM Model]\n" "[ICM Pin Map] P\n"
    "Pin_order Un_ordered\n" "Pin_list\n" "A1\n" "A2\n" "[ICM Pin Map] Q\n" "Pin_order Un_ordered\n" "Pin_list\n"
    "1\n" "2\n" "[End ICM Family]\n" "[Begin ICM Section] S\n" "[Derivation Method] Lumped\n"
    "[Inductance Matrix] Full_matrix\n" "[Row] 1\n" "4.50nH 0.8nH\n" "[Row] 2\n" "4.5nH\n" "[End ICM Section]\n"
    "[End]\n";
static const size_t example_length = sizeof example - 1;
static uint64_t table[USED]; /* the example's table, read once in main and then only lent */
static int failures;

static void check(bool passed, const char *what)
{
    if (!passed) {
        printf("failed: %s\n", what);
        failures++;
    }
}

static const uint8_t *bytes(const char *text)
{
    return (const uint8_t *)text;
}

static void fill(uint64_t *words, size_t count, uint64_t word)
{
    for (size_t i = 0; i < count; i++)
        words[i] = word;
}

static bool all(const uint64_t *words, size_t count, uint64_t word)
{
    for (size_t i = 0; i < count; i++)
        if (words[i] != word)
            return false;
    return true;
}

/* Whether an answer is these four words and the word after it was left alone. */
static bool is(const uint64_t *answer, uint64_t given, uint64_t number, uint64_t line, uint64_t word)
{
    return answer[SKUMVARI_GIVEN] == given && answer[SKUMVARI_NUMBER] == number && answer[SKUMVARI_LINE] == line
        && answer[SKUMVARI_WORD] == word && answer[SKUMVARI_ANSWER_WORDS] == GUARD;
}

/* Reads a text into so many words of a table full of rubbish; tells whether the answer is right and the words were left as promised. */
static bool reads(const char *text, size_t length, size_t room, uint64_t given, uint64_t number, uint64_t line, uint64_t used)
{
    static uint64_t words[300];
    uint64_t answer[SKUMVARI_ANSWER_WORDS + 1];
    fill(words, 300, GUARD);
    fill(answer, SKUMVARI_ANSWER_WORDS + 1, GUARD);
    return skumvari_intake(bytes(text), length, words, room, answer, SKUMVARI_ANSWER_WORDS) && is(answer, given, number, line, used)
        && all(words + used, room - used, 0) && all(words + room, 300 - room, GUARD);
}

static void check_intake(void)
{
    check(skumvari_table_words() >= USED, "a table long enough for every text is long enough for the example");
    check(reads(example, example_length, USED, 1, 0, 0, USED), "the example fits into 92 words");
    check(reads(example, example_length, 299, 1, 0, 0, USED), "words past the 92 are zeroed, and none past the table");
    check(reads(example, example_length, USED - 1, 0, SKUMVARI_NUMBER_ROOM, 0, 0), "91 words are refused 18");
    check(reads(example, example_length, 0, 0, SKUMVARI_NUMBER_ROOM, 0, 0), "a table of no words is refused 18");
    check(reads("", 0, 299, 0, SKUMVARI_NUMBER_HEADER, 0, 0), "an empty text is refused 5");
    check(reads("", 0, 0, 0, SKUMVARI_NUMBER_HEADER, 0, 0), "an empty text with an empty table is refused 5");
    check(reads("x", 1, 299, 0, SKUMVARI_NUMBER_UNENDED, 1, 0), "a line without an end is refused 4");
    check(reads(example, example_length - 1, 299, 0, SKUMVARI_NUMBER_UNENDED, 39, 0), "the example without its last byte is refused 4");
}

/* The example with one line replaced; nothing for it leaves a blank line, so that the others keep their numbers. */
static const char *edited(int line, const char *replacement)
{
    static char text[2048];
    const char *start = example;
    for (int i = 1; i < line; i++)
        start = strchr(start, '\n') + 1;
    sprintf(text, "%.*s%s%s", (int)(start - example), example, replacement, strchr(start, '\n'));
    return text;
}

static void check_refusals(void)
{
    static const struct {
        int line;
        const char *replacement;
        uint64_t number, refused_line;
    } cases[] = {
        { 23, "A\x80", SKUMVARI_NUMBER_BYTE, 23 },
        { 1, "", SKUMVARI_NUMBER_HEADER, 0 },
        { 5, "[]", SKUMVARI_NUMBER_KEYWORD, 5 },
        { 17, "[Foo]", SKUMVARI_NUMBER_UNKNOWN, 17 },
        { 17, "[Frequency] 1", SKUMVARI_NUMBER_LATER, 17 },
        { 3, "", SKUMVARI_NUMBER_PLACE, 5 },
        { 39, "", SKUMVARI_NUMBER_END, 0 },
        { 2, "[ICM Ver] 1.10", SKUMVARI_NUMBER_ARGUMENT, 2 },
        { 4, "[File Rev] 0.1\nx", SKUMVARI_NUMBER_LINE, 5 },
        { 14, "Section Mult=x S", SKUMVARI_NUMBER_NUMBER, 14 },
        { 14, "Section Mult=0 S", SKUMVARI_NUMBER_RANGE, 14 },
        { 17, "[Row] x", SKUMVARI_NUMBER_FORK, 17 },
        { 35, "4.50nH", SKUMVARI_NUMBER_SHAPE, 38 },
        { 24, "A1", SKUMVARI_NUMBER_TWICE, 24 },
        { 9, "B", SKUMVARI_NUMBER_LIST, 9 },
        { 13, "Model_pinmap X", SKUMVARI_NUMBER_NOMAP, 13 },
        { 18, "Model_pinmap P", SKUMVARI_NUMBER_SIDE, 18 },
        { 14, "Section Mult=2 T", SKUMVARI_NUMBER_NOSECTION, 14 },
        { 14, "Section Len=2 S", SKUMVARI_NUMBER_METHOD, 14 },
        { 11, "ICM_model_type SLM_quiescent", SKUMVARI_NUMBER_KIND, 14 },
        { 24, "", SKUMVARI_NUMBER_COUNT, 14 },
        { 38, "[End ICM Section]\n[Begin ICM Section] T\n[Derivation Method] Lumped\n[Resistance Matrix] Diagonal_matrix\n1\n[End ICM Section]",
          SKUMVARI_NUMBER_UNUSED, 39 },
        { 11, "ICM_model_type MLM\nSGR 3:1", SKUMVARI_NUMBER_SGR, 12 },
        { 11, "SGR 3:1\nICM_model_type MLM", SKUMVARI_NUMBER_SGR, 11 },
    };
    for (size_t i = 0; i < sizeof cases / sizeof cases[0]; i++) {
        const char *text = edited(cases[i].line, cases[i].replacement);
        check(reads(text, strlen(text), 299, 0, cases[i].number, cases[i].refused_line, 0), cases[i].replacement);
    }
}

static void check_sizes(void)
{
    static char large[1048577];
    memset(large, '\n', sizeof large);
    check(reads(large, sizeof large, 299, 0, SKUMVARI_NUMBER_SIZE, 0, 0), "1,048,577 bytes are refused 1");
    check(reads(large, sizeof large - 1, 299, 0, SKUMVARI_NUMBER_HEADER, 0, 0), "1,048,576 bytes are read");
    memset(large, 'x', 121);
    check(reads(large, 200, 299, 0, SKUMVARI_NUMBER_LONG, 1, 0), "a line of 121 characters is refused 3");
}

/* Asks for an entry and tells whether the answer is these words. */
static bool enters(const uint64_t *words, uint64_t section, uint64_t kind, uint64_t row, uint64_t column, uint64_t given, uint64_t number,
                   uint64_t word)
{
    uint64_t answer[SKUMVARI_ANSWER_WORDS + 1];
    fill(answer, SKUMVARI_ANSWER_WORDS + 1, GUARD);
    return skumvari_entry(bytes(example), example_length, words, USED, section, kind, row, column, answer, SKUMVARI_ANSWER_WORDS)
        && is(answer, given, number, 0, word);
}

static void check_entries(void)
{
    uint64_t answer[SKUMVARI_ANSWER_WORDS];
    skumvari_entry(bytes(example), example_length, table, USED, 0, SKUMVARI_L, 1, 1, answer, SKUMVARI_ANSWER_WORDS);
    uint64_t value = answer[SKUMVARI_WORD];
    check(SKUMVARI_VALUE_SIZE(value) == 45 && SKUMVARI_VALUE_EXPONENT(value) == -10 && !SKUMVARI_VALUE_NEGATIVE(value), "S L 1 1 is 45e-10");
    check(SKUMVARI_VALUE_NEGATIVE(value + 1) && SKUMVARI_VALUE_EXPONENT(value + 1) == -10, "an odd value word is negative");
    check(enters(table, 0, SKUMVARI_L, 2, 2, 1, 0, value), "S L 2 2 is S L 1 1");
    uint64_t across = 256 * 8 + 2 * (-10 + 64);
    check(enters(table, 0, SKUMVARI_L, 1, 2, 1, 0, across), "S L 1 2 is 8e-10");
    check(enters(table, 0, SKUMVARI_L, 2, 1, 1, 0, across), "S L 2 1 is S L 1 2");
    check(enters(table, 0, SKUMVARI_C, 1, 1, 1, 0, 128), "a kind that is not given is zero");
    check(enters(table, 1, SKUMVARI_L, 1, 1, 0, SKUMVARI_NUMBER_NOSUCH, 0), "no second section");
    check(enters(table, 0, 4, 1, 1, 0, SKUMVARI_NUMBER_NOSUCH, 0), "no fifth kind");
    check(enters(table, 0, SKUMVARI_L, 0, 1, 0, SKUMVARI_NUMBER_NOSUCH, 0), "no row 0");
    check(enters(table, 0, SKUMVARI_L, 3, 1, 0, SKUMVARI_NUMBER_NOSUCH, 0), "no row 3");
    check(enters(table, 0, SKUMVARI_L, 1, 0, 0, SKUMVARI_NUMBER_NOSUCH, 0), "no column 0");
    check(enters(table, 0, SKUMVARI_L, 1, 3, 0, SKUMVARI_NUMBER_NOSUCH, 0), "no column 3");
    check(enters(table, UINT64_MAX, UINT64_MAX, UINT64_MAX, UINT64_MAX, 0, SKUMVARI_NUMBER_NOSUCH, 0), "no greatest entry");
}

/* Asks for a whole matrix into values full of rubbish and tells whether the answer is these words. */
static bool fills(const uint64_t *words, uint64_t section, uint64_t kind, uint64_t *values, size_t count, uint64_t given, uint64_t number,
                  uint64_t conductors)
{
    uint64_t answer[SKUMVARI_ANSWER_WORDS + 1];
    fill(answer, SKUMVARI_ANSWER_WORDS + 1, GUARD);
    fill(values, 6, GUARD);
    return skumvari_matrix(bytes(example), example_length, words, USED, section, kind, values, count, answer, SKUMVARI_ANSWER_WORDS)
        && is(answer, given, number, 0, conductors) && all(values + conductors * conductors, 6 - conductors * conductors, GUARD);
}

static void check_matrix(void)
{
    uint64_t values[6];
    for (size_t count = 4; count <= 6; count++) {
        check(fills(table, 0, SKUMVARI_L, values, count, 1, 0, 2), "the whole matrix S L, nothing past it");
        check(values[0] == 11628 && values[1] == 2156 && values[2] == 2156 && values[3] == 11628, "its values row by row");
    }
    check(fills(table, 0, SKUMVARI_R, values, 4, 1, 0, 2) && all(values, 4, 128), "a kind that is not given is zero everywhere");
    for (size_t count = 0; count < 4; count++)
        check(fills(table, 0, SKUMVARI_L, values, count, 0, 0, 2) && all(values, 4, GUARD), "too few values are told by number 0, with N");
    check(fills(table, 1, SKUMVARI_L, values, 4, 0, SKUMVARI_NUMBER_NOSUCH, 0), "no whole matrix of a second section");
    check(fills(table, 0, 4, values, 4, 0, SKUMVARI_NUMBER_NOSUCH, 0), "no whole matrix of a fifth kind");
    check(fills(table, 1, SKUMVARI_L, values, 0, 0, SKUMVARI_NUMBER_NOSUCH, 0), "31 goes before too few values");
}

/* Asks for a step and tells whether the answer is these words. */
static bool steps(const uint64_t *words, uint64_t model, uint64_t step, uint64_t depth, const uint64_t *wanted)
{
    uint64_t answer[SKUMVARI_WALK_WORDS + 1];
    fill(answer, SKUMVARI_WALK_WORDS + 1, GUARD);
    return skumvari_walk(bytes(example), example_length, words, USED, model, step, depth, answer, SKUMVARI_WALK_WORDS)
        && memcmp(answer, wanted, SKUMVARI_WALK_WORDS * sizeof *wanted) == 0 && answer[SKUMVARI_WALK_WORDS] == GUARD;
}

static void check_walk(void)
{
    static const uint64_t path[7][SKUMVARI_WALK_WORDS] = {
        /* given, number, line; done; kind, target, amount, side start, side length, line; next model, step, depth */
        { 1, 0, 0, 0, 0, 0, 0, 0, 0, 13, 0, 1, 0 }, /* Model_pinmap P */
        { 1, 0, 0, 0, 1, 0, 2, 0, 0, 14, 0, 2, 0 }, /* Section Mult=2 S */
        { 1, 0, 0, 0, 2, 0, 0, 0, 0, 15, 0, 3, 1 }, /* Fork */
        { 1, 0, 0, 0, 1, 0, 1, 0, 0, 16, 0, 4, 1 }, /* Section Mult=1 S */
        { 1, 0, 0, 0, 3, 0, 0, 0, 0, 17, 0, 5, 0 }, /* Endfork */
        { 1, 0, 0, 0, 0, 1, 0, 0, 0, 18, 0, 6, 0 }, /* Model_pinmap Q */
        { 1, 0, 0, 1, 0, 0, 0, 0, 0, 0, 0, 6, 0 }, /* done: the same place again */
    };
    uint64_t place[3] = { 0, 0, 0 };
    for (int i = 0; i < 7; i++) {
        check(steps(table, place[0], place[1], place[2], path[i]), "a step of model A");
        memcpy(place, path[i] + SKUMVARI_NEXT_MODEL, sizeof place);
    }
    static const uint64_t nosuch[SKUMVARI_WALK_WORDS] = { 0, SKUMVARI_NUMBER_NOSUCH };
    check(steps(table, 1, 0, 0, nosuch), "no second model");
    check(steps(table, 0, 7, 0, nosuch), "no step after done");
    check(steps(table, 0, 3, 0, nosuch), "no step at another depth");
    check(steps(table, UINT64_MAX, UINT64_MAX, UINT64_MAX, nosuch), "no greatest place");
}

/* Asks the same entry without judging, and tells whether both answers are the same words. */
static bool enters_alike(uint64_t section, uint64_t kind, uint64_t row, uint64_t column)
{
    uint64_t judged[SKUMVARI_ANSWER_WORDS + 1], unjudged[SKUMVARI_ANSWER_WORDS + 1];
    fill(judged, SKUMVARI_ANSWER_WORDS + 1, GUARD);
    fill(unjudged, SKUMVARI_ANSWER_WORDS + 1, GUARD);
    return skumvari_entry(bytes(example), example_length, table, USED, section, kind, row, column, judged, SKUMVARI_ANSWER_WORDS)
        && skumvari_entry_unjudged(bytes(example), example_length, table, USED, section, kind, row, column, unjudged,
                                   SKUMVARI_ANSWER_WORDS)
        && memcmp(judged, unjudged, sizeof judged) == 0;
}

/* The same of a whole matrix and its values. */
static bool fills_alike(uint64_t section, uint64_t kind, size_t count)
{
    uint64_t judged[SKUMVARI_ANSWER_WORDS + 1], unjudged[SKUMVARI_ANSWER_WORDS + 1], values[6], others[6];
    fill(judged, SKUMVARI_ANSWER_WORDS + 1, GUARD);
    fill(unjudged, SKUMVARI_ANSWER_WORDS + 1, GUARD);
    fill(values, 6, GUARD);
    fill(others, 6, GUARD);
    return skumvari_matrix(bytes(example), example_length, table, USED, section, kind, values, count, judged, SKUMVARI_ANSWER_WORDS)
        && skumvari_matrix_unjudged(bytes(example), example_length, table, USED, section, kind, others, count, unjudged,
                                    SKUMVARI_ANSWER_WORDS)
        && memcmp(judged, unjudged, sizeof judged) == 0 && memcmp(values, others, sizeof values) == 0;
}

/* The same of a step from a place in range; hands on the next place. */
static bool steps_alike(uint64_t place[3])
{
    uint64_t judged[SKUMVARI_WALK_WORDS + 1], unjudged[SKUMVARI_WALK_WORDS + 1];
    fill(judged, SKUMVARI_WALK_WORDS + 1, GUARD);
    fill(unjudged, SKUMVARI_WALK_WORDS + 1, GUARD);
    bool alike = skumvari_walk(bytes(example), example_length, table, USED, place[0], place[1], place[2], judged, SKUMVARI_WALK_WORDS)
        && skumvari_walk_unjudged(bytes(example), example_length, table, USED, place[0], place[1], place[2], unjudged,
                                  SKUMVARI_WALK_WORDS)
        && memcmp(judged, unjudged, sizeof judged) == 0;
    memcpy(place, unjudged + SKUMVARI_NEXT_MODEL, 3 * sizeof *place);
    return alike;
}

/* The table is what the intake left for the example, so the questions may be asked without judging it. */
static void check_unjudged(void)
{
    for (uint64_t section = 0; section < 2; section++)
        for (uint64_t kind = 0; kind < 5; kind++) {
            for (uint64_t row = 0; row < 4; row++)
                for (uint64_t column = 0; column < 4; column++)
                    check(enters_alike(section, kind, row, column), "an entry without judging is the entry");
            for (size_t count = 0; count <= 6; count++)
                check(fills_alike(section, kind, count), "a matrix without judging is the matrix");
        }
    check(enters_alike(UINT64_MAX, UINT64_MAX, UINT64_MAX, UINT64_MAX), "no greatest entry without judging");
    uint64_t place[3] = { 0, 0, 0 };
    for (int i = 0; i < 7; i++)
        check(steps_alike(place), "a step without judging is the step");
    check(place[0] == 0 && place[1] == 6 && place[2] == 0, "a walk without judging comes to its end and stays");
}

static void check_list(void)
{
    static const char listing[] =
        "accepted 92\n" "models 1\n" "A MLM 6\n" "steps 6\n" "end 13 P\n" "section 14 S 2\n" "fork 15\n" "section 16 S 1\n"
        "endfork 17\n" "end 18 Q\n" "maps 2\n" "P 2\n" "Q 2\n" "sections 1\n" "S Lumped 2\n" "values 3\n" "S L 1 1 45e-10\n"
        "S L 1 2 8e-10\n" "S L 2 2 45e-10\n";
    const size_t length = sizeof listing - 1;
    uint8_t out[sizeof listing + 8], guard[sizeof out];
    memset(guard, 0xA5, sizeof guard);
    for (size_t room = 0; room <= length + 7; room++) {
        size_t written = room < length ? room : length;
        memset(out, 0xA5, sizeof out);
        check(skumvari_list(bytes(example), example_length, table, USED, USED, out, room) == written, "the bytes of a listing");
        check(memcmp(out, listing, written) == 0, "the listing is the paper's, as far as there is room");
        check(memcmp(out + written, guard, sizeof out - written) == 0, "what is behind a listing is left as it was");
    }
}

static uint64_t value_word(bool negative, uint64_t size, int exponent)
{
    return 256 * size + 2 * (uint64_t)(exponent + 64) + negative;
}

/* Asks for a double and tells whether the answer is this number, bit for bit. */
static bool draws(uint64_t word, double number)
{
    uint64_t answer[SKUMVARI_ANSWER_WORDS + 1];
    fill(answer, SKUMVARI_ANSWER_WORDS + 1, GUARD);
    if (!skumvari_double(word, answer, SKUMVARI_ANSWER_WORDS) || answer[SKUMVARI_GIVEN] != 1)
        return false;
    double drawn = skumvari_double_of_bits(answer[SKUMVARI_WORD]);
    return is(answer, 1, 0, 0, answer[SKUMVARI_WORD]) && memcmp(&drawn, &number, sizeof drawn) == 0;
}

static bool draws_nothing(uint64_t word)
{
    uint64_t answer[SKUMVARI_ANSWER_WORDS + 1];
    fill(answer, SKUMVARI_ANSWER_WORDS + 1, GUARD);
    return skumvari_double(word, answer, SKUMVARI_ANSWER_WORDS) && is(answer, 0, 0, 0, 0);
}

/* Asks for a pair and tells whether the answer is these words. */
static bool pairs(uint64_t frequency, uint64_t value, uint64_t given, double first, double second)
{
    uint64_t answer[SKUMVARI_PAIR_WORDS + 1], wanted[SKUMVARI_PAIR_WORDS + 1] = { given };
    fill(answer, SKUMVARI_PAIR_WORDS + 1, GUARD);
    memcpy(wanted + SKUMVARI_FREQUENCY_BITS, &first, sizeof first);
    memcpy(wanted + SKUMVARI_VALUE_BITS, &second, sizeof second);
    wanted[SKUMVARI_PAIR_WORDS] = GUARD;
    return skumvari_pair(frequency, value, answer, SKUMVARI_PAIR_WORDS) && memcmp(answer, wanted, sizeof answer) == 0;
}

static void check_doubles(void)
{
    uint64_t frequency = value_word(false, 1, 9), value = value_word(true, 45, -10);
    check(draws(value, -(45.0 / 1e10)), "-45e-10 is drawn by one division");
    check(draws(value_word(false, 1, 22), 1e22) && draws_nothing(value_word(false, 1, 23)), "1e22 is drawn and 1e23 is outside");
    check(draws(value_word(true, 1, -22), -(1 / 1e22)) && draws_nothing(value_word(true, 1, -23)), "-1e-22 is drawn and -1e-23 is outside");
    check(draws(value_word(false, 900719925474099, 1), 9007199254740990.0), "a whole number below two to the 53 is itself");
    check(draws(128, 0.0), "zero is plus zero");
    check(draws_nothing(129) && draws_nothing(0) && draws_nothing(value_word(false, 10, 0)) && draws_nothing(UINT64_MAX),
          "what is no value word is outside");
    check(pairs(frequency, value, 1, 1e9, -(45.0 / 1e10)), "a frequency and a value are drawn, in this order");
    check(pairs(frequency, 129, 0, 0, 0) && pairs(129, value, 0, 0, 0) && pairs(0, 0, 0, 0, 0), "a pair is outside if either is");
}

/* A number that looks random: splitmix64. */
static uint64_t random_word(void)
{
    static uint64_t state = 11;
    uint64_t word = state += UINT64_C(0x9e3779b97f4a7c15);
    word = (word ^ word >> 30) * UINT64_C(0xbf58476d1ce4e5b9);
    word = (word ^ word >> 27) * UINT64_C(0x94d049bb133111eb);
    return word ^ word >> 31;
}

/* The double by C's own operation, and by the C library's reading of m, e and k. */
static bool draws_as_c(bool negative, uint64_t size, int exponent)
{
    static const double tens[] = { 1e0, 1e1, 1e2, 1e3, 1e4, 1e5, 1e6, 1e7, 1e8, 1e9, 1e10, 1e11,
                                   1e12, 1e13, 1e14, 1e15, 1e16, 1e17, 1e18, 1e19, 1e20, 1e21, 1e22 };
    char text[40];
    sprintf(text, "%s%llue%d", negative ? "-" : "", (unsigned long long)size, exponent);
    double number = exponent < 0 ? (double)size / tens[-exponent] : (double)size * tens[exponent];
    uint64_t word = value_word(negative, size, exponent);
    return draws(word, negative ? -number : number) && draws(word, strtod(text, NULL));
}

/* An m of 1 to 15 digits. */
static uint64_t random_size(void)
{
    uint64_t bound = 10;
    for (uint64_t digits = random_word() % 15; digits > 0; digits--)
        bound *= 10;
    return random_word() % bound;
}

/* A million words that are drawn, and those met on the way that are not: k goes from -30 to 30, and m may be 0 or end in 0. Zero is asked above. */
static void check_many_doubles(void)
{
    int drawn = 0, outside = 0, failed = 0;
    while (drawn < 1000000) {
        bool negative = random_word() % 2;
        uint64_t size = random_size();
        int exponent = (int)(random_word() % 61) - 30;
        if (size % 10 != 0 && exponent >= -22 && exponent <= 22) {
            failed += !draws_as_c(negative, size, exponent);
            drawn++;
        } else if (value_word(negative, size, exponent) != 128) {
            failed += !draws_nothing(value_word(negative, size, exponent));
            outside++;
        }
    }
    check(failed == 0, "a million doubles are those of C, and what is outside is not drawn");
    check(outside > 100000, "many words were met that are not drawn");
    int long_drawn = 0;
    for (int i = 0; i < 1000000; i++)
        long_drawn += !draws_nothing(random_word() | UINT64_C(1) << 63);
    check(long_drawn == 0, "words with an m of 17 digits are outside");
}

/* Words lent for an answer that are too few: false, and nothing is written; of the intake the table is zeroed all the same. */
static void check_short_answers(void)
{
    uint64_t answer[SKUMVARI_WALK_WORDS], values[4], words[USED + 1];
    fill(answer, SKUMVARI_WALK_WORDS, GUARD);
    fill(values, 4, GUARD);
    for (size_t room = 0; room < SKUMVARI_ANSWER_WORDS; room++) {
        fill(words, USED + 1, GUARD);
        check(!skumvari_intake(bytes(example), example_length, words, USED, answer, room), "intake with a short answer is false");
        check(all(words, USED, 0) && words[USED] == GUARD, "intake with a short answer leaves zeros");
        check(!skumvari_entry(bytes(example), example_length, table, USED, 0, SKUMVARI_L, 1, 1, answer, room),
              "entry with a short answer is false");
        check(!skumvari_matrix(bytes(example), example_length, table, USED, 0, SKUMVARI_L, values, 4, answer, room),
              "matrix with a short answer is false");
        check(!skumvari_entry_unjudged(bytes(example), example_length, table, USED, 0, SKUMVARI_L, 1, 1, answer, room),
              "entry without judging with a short answer is false");
        check(!skumvari_matrix_unjudged(bytes(example), example_length, table, USED, 0, SKUMVARI_L, values, 4, answer, room),
              "matrix without judging with a short answer is false");
        check(!skumvari_double(128, answer, room), "double with a short answer is false");
    }
    for (size_t room = 0; room < SKUMVARI_PAIR_WORDS; room++)
        check(!skumvari_pair(128, 128, answer, room), "pair with a short answer is false");
    for (size_t room = 0; room < SKUMVARI_WALK_WORDS; room++) {
        check(!skumvari_walk(bytes(example), example_length, table, USED, 0, 0, 0, answer, room), "walk with a short answer is false");
        check(!skumvari_walk_unjudged(bytes(example), example_length, table, USED, 0, 0, 0, answer, room),
              "walk without judging with a short answer is false");
    }
    check(all(answer, SKUMVARI_WALK_WORDS, GUARD) && all(values, 4, GUARD), "a short answer is not written");
}

/* Bends every word of the table in turn: unsound, and then every question is refused 30; only the lines of records are not judged. */
static void check_sound(void)
{
    static const uint64_t refused[SKUMVARI_WALK_WORDS] = { 0, SKUMVARI_NUMBER_TABLE };
    uint64_t bent[USED], values[6];
    check(skumvari_sound(bytes(example), example_length, table, USED), "the table that the intake left is sound");
    check(!skumvari_sound(bytes(example), example_length, table, USED - 1), "the table without its last word is unsound");
    check(!skumvari_sound(bytes(example), example_length, table, 0), "no table is unsound");
    check(!skumvari_sound(bytes(example), 0, table, USED), "names outside the text are unsound");
    for (size_t i = 0; i < USED; i++) {
        bool line = i == 81 || (i >= 7 && i < 43 && (i - 7) % 6 == 5); /* of the matrix, of the six steps */
        memcpy(bent, table, sizeof bent);
        bent[i] = UINT64_MAX;
        check(skumvari_sound(bytes(example), example_length, bent, USED) == line, "one bent word makes a table unsound, a line does not");
        if (line)
            continue;
        check(enters(bent, 9, 9, 9, 9, 0, SKUMVARI_NUMBER_TABLE, 0), "an entry over a bent table is refused 30");
        check(fills(bent, 9, 9, values, 0, 0, SKUMVARI_NUMBER_TABLE, 0), "a matrix over a bent table is refused 30");
        check(steps(bent, 9, 9, 9, refused), "a walk over a bent table is refused 30");
    }
}

int main(void)
{
    uint64_t answer[SKUMVARI_ANSWER_WORDS];
    check(skumvari_intake(bytes(example), example_length, table, USED, answer, SKUMVARI_ANSWER_WORDS), "the example is read");
    check_intake();
    check_refusals();
    check_sizes();
    check_entries();
    check_matrix();
    check_walk();
    check_unjudged();
    check_list();
    check_doubles();
    check_many_doubles();
    check_short_answers();
    check_sound();
    if (failures == 0)
        printf("ok\n");
    return failures != 0;
}
