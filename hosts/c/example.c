/* example.c: the shortest use of skumvari: prints the inductance of conductor 1 in the first section of the file given by name.
 * Build it with `cc -Iinclude hosts/c/example.c target/staticlib/libskumvari.a -o example`. */
#include <inttypes.h>
#include <stdio.h>
#include <stdlib.h>

#include "skumvari.h"

int main(int count, char **arguments)
{
    static uint8_t text[1048577]; /* one byte more than a text may have, so that a longer file is refused */
    uint64_t answer[SKUMVARI_ANSWER_WORDS];
    size_t words = skumvari_table_words();
    uint64_t *table = malloc(words * sizeof *table);
    FILE *file = count == 2 ? fopen(arguments[1], "rb") : NULL;
    if (table == NULL || file == NULL)
        return fprintf(stderr, "usage: example FILE\n"), 2;
    size_t length = fread(text, 1, sizeof text, file);
    fclose(file);

    skumvari_intake(text, length, table, words, answer, SKUMVARI_ANSWER_WORDS);
    if (answer[SKUMVARI_GIVEN])
        skumvari_entry(text, length, table, words, 0, SKUMVARI_L, 1, 1, answer, SKUMVARI_ANSWER_WORDS);
    free(table);
    if (!answer[SKUMVARI_GIVEN])
        return fprintf(stderr, "refused %" PRIu64 " at line %" PRIu64 "\n", answer[SKUMVARI_NUMBER], answer[SKUMVARI_LINE]), 1;

    uint64_t value = answer[SKUMVARI_WORD];
    printf("%s%" PRIu64 "e%d\n", SKUMVARI_VALUE_NEGATIVE(value) ? "-" : "", SKUMVARI_VALUE_SIZE(value), SKUMVARI_VALUE_EXPONENT(value));
    return 0;
}
