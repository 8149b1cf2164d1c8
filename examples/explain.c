/* explain FOLDER: the listing of the folder's table.txt and formula.txt, as the program `explain` prints it, by one call of the library. */
#include <explainer.h>

#include <inttypes.h>
#include <stdio.h>
#include <stdlib.h>

#include "files.h"

/* The program lends places for so many. */
#define ROWS 1024
#define EDGES 4096

static uint8_t table[EXPLAINER_TABLE_LENGTH];
static uint8_t formula[EXPLAINER_FORMULA_LENGTH];
static uint8_t rows[ROWS * EXPLAINER_ROW_LENGTH];
static uint8_t edges[EDGES * EXPLAINER_EDGE_LENGTH];

/* A row number: two bytes, the low one first. */
static unsigned row_at(const uint8_t *at)
{
    return at[0] + 256u * at[1];
}

static void print_listing(uint64_t verdict, uint64_t formula_class, uint64_t row_count, uint64_t edge_count)
{
    printf("%6" PRIu64 "%6" PRIu64 "%6" PRIu64 "%6" PRIu64 "\n", verdict, formula_class, row_count, edge_count);
    for (uint64_t i = 0; i < row_count; i++) {
        const uint8_t *row = rows + i * EXPLAINER_ROW_LENGTH;
        printf("%6" PRIu64 "%6u%6u%6u\n", i, (unsigned)row[0], (unsigned)row[1], (unsigned)row[2]);
    }
    for (uint64_t i = 0; i < edge_count; i++) {
        const uint8_t *edge = edges + i * EXPLAINER_EDGE_LENGTH;
        printf("%6u%6u%6u\n", row_at(edge), (unsigned)edge[2], row_at(edge + 3));
    }
}

int main(int count, char **words)
{
    if (count != 2) {
        fprintf(stderr, "explain FOLDER\n");
        return 2;
    }
    struct file table_text = read_file(words[1], "table.txt");
    struct file formula_text = read_formula_file(words[1]);
    uint64_t figure, verdict, formula_class, edge_count;
    uint32_t number = explainer_explain(table_text.bytes, table_text.length, formula_text.bytes, formula_text.length,
                                        table, sizeof table, formula, sizeof formula, rows, sizeof rows, edges, sizeof edges,
                                        &figure, &verdict, &formula_class, &edge_count);
    if (number == EXPLAINER_ACCEPTED)
        print_listing(verdict, formula_class, figure, edge_count);
    else
        printf("%6" PRIu32 "%6" PRIu64 "\n", number, figure);
    free(table_text.bytes);
    free(formula_text.bytes);
    return 0;
}
