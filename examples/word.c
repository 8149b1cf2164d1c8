/* word FOLDER LABEL..: 1 if the automaton of the folder's table.txt and formula.txt accepts the word of these label numbers, else 0; or the
   line of the refusal. What a refusal means is said on the standard error. */
#include <explainer.h>

#include <inttypes.h>
#include <stdio.h>
#include <stdlib.h>

#include "files.h"

static uint8_t table[EXPLAINER_TABLE_LENGTH];
static uint8_t formula[EXPLAINER_FORMULA_LENGTH];

static int refused(uint32_t number, uint64_t figure)
{
    printf("%6" PRIu32 "%6" PRIu64 "\n", number, figure);
    fprintf(stderr, "word: %s\n", explainer_refusal(number));
    return 0;
}

/* The prepared forms of both texts; they serve any number of words. */
static uint32_t prepare(const char *folder, uint64_t *figure)
{
    struct file table_text = read_file(folder, "table.txt");
    struct file formula_text = read_formula_file(folder);
    uint32_t number = explainer_read_table(table_text.bytes, table_text.length, table, sizeof table, figure);
    if (number == EXPLAINER_ACCEPTED)
        number = explainer_read_formula(table, sizeof table, formula_text.bytes, formula_text.length, formula, sizeof formula, figure);
    free(table_text.bytes);
    free(formula_text.bytes);
    return number;
}

/* A label number, 99 for an idle step. None is above 99, so a number over 255 is as bad as 255 is. */
static int read_label(const char *word, uint8_t *label)
{
    char *end;
    unsigned long number = strtoul(word, &end, 10);
    *label = number < 255 ? (uint8_t)number : 255;
    return *word >= '0' && *word <= '9' && *end == '\0';
}

int main(int count, char **words)
{
    size_t length = count > 2 ? (size_t)count - 2 : 0;
    uint8_t *word = (uint8_t *)grown(NULL, length + 1);
    int right = count >= 2;
    for (size_t i = 0; i < length; i++)
        right = read_label(words[i + 2], word + i) && right;
    if (!right) {
        fprintf(stderr, "word FOLDER LABEL..\n");
        return 2;
    }
    uint64_t figure;
    uint32_t number = prepare(words[1], &figure);
    if (number == EXPLAINER_ACCEPTED)
        number = explainer_accepts(table, sizeof table, formula, sizeof formula, word, length, &figure);
    free(word);
    if (number != EXPLAINER_ACCEPTED)
        return refused(number, figure);
    printf("%" PRIu64 "\n", figure);
    return 0;
}
