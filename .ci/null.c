/* Every slice whose length is 0 handed over as null: each call answers as for an empty one, and writes nothing else. Compiled as C99 and as C++17. */
#include <explainer.h>

#include <stdio.h>
#include <string.h>

static uint8_t table[EXPLAINER_TABLE_LENGTH];
static uint8_t formula[EXPLAINER_FORMULA_LENGTH];
static uint8_t answers[EXPLAINER_MOST_STATES];
static uint8_t smallest[EXPLAINER_SMALLEST_LENGTH];
static uint8_t work[EXPLAINER_WORK_LENGTH];
static int failed;

static void expect(const char *call, uint32_t number, uint64_t figure, uint32_t expected, uint64_t of)
{
    if (number == expected && figure == of)
        return;
    printf("%s: %lu and %lu, not %lu and %lu\n", call, (unsigned long)number, (unsigned long)figure, (unsigned long)expected, (unsigned long)of);
    failed = 1;
}

int main(void)
{
    const char *m = "     3     2     3     0\n     1 req\n     2 ack\n     0     1     1\n     1     0     2\n     1     2     0\n";
    const uint8_t *text = (const uint8_t *)m;
    const uint8_t *line = (const uint8_t *)"EU[*;ack] T";
    uint64_t f, verdict = 7, formula_class = 7, edges = 7;
    uint32_t n;

    n = explainer_read_table(NULL, 0, NULL, 0, &f);
    expect("read_table", n, f, EXPLAINER_BUFFER_SHORT, EXPLAINER_TABLE_LENGTH);
    n = explainer_read_table(NULL, 0, table, sizeof table, &f);
    expect("read_table", n, f, EXPLAINER_TABLE_NOT_LAID_OUT, 1);
    n = explainer_read_table(text, strlen(m), table, sizeof table, &f);
    expect("read_table", n, f, EXPLAINER_ACCEPTED, 0);
    n = explainer_table_text(NULL, 0, NULL, 0, &f);
    expect("table_text", n, f, EXPLAINER_BUFFER_SHORT, EXPLAINER_TABLE_LENGTH);
    n = explainer_table_text(table, sizeof table, NULL, 0, &f);
    expect("table_text", n, f, EXPLAINER_BUFFER_SHORT, EXPLAINER_LONGEST_TABLE_TEXT);
    n = explainer_combine(NULL, 0, NULL, 0, NULL, 0, &f);
    expect("combine", n, f, EXPLAINER_BUFFER_SHORT, EXPLAINER_TABLE_LENGTH);
    n = explainer_combine(table, sizeof table, table, sizeof table, NULL, 0, &f);
    expect("combine", n, f, EXPLAINER_BUFFER_SHORT, EXPLAINER_TABLE_LENGTH);
    n = explainer_read_formula(NULL, 0, NULL, 0, NULL, 0, &f);
    expect("read_formula", n, f, EXPLAINER_BUFFER_SHORT, EXPLAINER_TABLE_LENGTH);
    n = explainer_read_formula(table, sizeof table, NULL, 0, formula, sizeof formula, &f);
    expect("read_formula", n, f, EXPLAINER_FORMULA_NOT_GRAMMATICAL, 0);
    n = explainer_read_formula(table, sizeof table, line, 11, formula, sizeof formula, &f);
    expect("read_formula", n, f, EXPLAINER_ACCEPTED, 0);
    n = explainer_verdict(table, sizeof table, NULL, 0, &f);
    expect("verdict", n, f, EXPLAINER_BUFFER_SHORT, EXPLAINER_FORMULA_LENGTH);
    n = explainer_verdicts(NULL, 0, NULL, 0, NULL, 0, NULL, 0, &f);
    expect("verdicts", n, f, EXPLAINER_BUFFER_SHORT, EXPLAINER_TABLE_LENGTH);
    n = explainer_verdicts(table, sizeof table, formula, sizeof formula, NULL, 0, NULL, 0, &f);
    expect("verdicts", n, f, EXPLAINER_BUFFER_SHORT, EXPLAINER_MOST_STATES);
    n = explainer_verdicts(table, sizeof table, formula, sizeof formula, NULL, 0, answers, sizeof answers, &f);
    expect("verdicts", n, f, EXPLAINER_ACCEPTED, 1);
    n = explainer_build(table, sizeof table, formula, sizeof formula, NULL, 0, NULL, 0, &f, &edges);
    expect("build", n, f, EXPLAINER_ROWS_SHORT, 3);
    n = explainer_smallest(NULL, 0, NULL, 0, NULL, 0, NULL, 0, NULL, 0, NULL, 0, &f, &edges);
    expect("smallest", n, f, EXPLAINER_BUFFER_SHORT, EXPLAINER_TABLE_LENGTH);
    n = explainer_smallest(table, sizeof table, formula, sizeof formula, NULL, 0, NULL, 0, NULL, 0, NULL, 0, &f, &edges);
    expect("smallest", n, f, EXPLAINER_BUFFER_SHORT, EXPLAINER_SMALLEST_LENGTH);
    n = explainer_smallest(table, sizeof table, formula, sizeof formula, NULL, 0, NULL, 0, smallest, sizeof smallest, NULL, 0, &f, &edges);
    expect("smallest", n, f, EXPLAINER_BUFFER_SHORT, EXPLAINER_WORK_LENGTH);
    n = explainer_smallest(table, sizeof table, formula, sizeof formula, NULL, 0, NULL, 0, smallest, sizeof smallest, work, sizeof work, &f, &edges);
    expect("smallest", n, f, EXPLAINER_ROWS_SHORT, 3);
    n = explainer_accepts(table, sizeof table, formula, sizeof formula, NULL, 0, &f);
    expect("accepts", n, f, EXPLAINER_ACCEPTED, 0);
    n = explainer_explain(NULL, 0, NULL, 0, NULL, 0, NULL, 0, NULL, 0, NULL, 0, &f, &verdict, &formula_class, &edges);
    expect("explain", n, f, EXPLAINER_BUFFER_SHORT, EXPLAINER_TABLE_LENGTH);
    n = explainer_explain(NULL, 0, NULL, 0, table, sizeof table, formula, sizeof formula, NULL, 0, NULL, 0, &f, &verdict, &formula_class, &edges);
    expect("explain", n, f, EXPLAINER_TABLE_NOT_LAID_OUT, 1);
    n = explainer_explain(text, strlen(m), line, 11, table, sizeof table, formula, sizeof formula, NULL, 0, NULL, 0, &f, &verdict, &formula_class, &edges);
    expect("explain", n, f, EXPLAINER_ROWS_SHORT, 3);
    n = explainer_write_formula(table, sizeof table, formula, sizeof formula, NULL, 0, &f);
    expect("write_formula", n, f, EXPLAINER_BUFFER_SHORT, EXPLAINER_LONGEST_FORMULA_TEXT);
    if (answers[0] != 0) {
        printf("verdicts at no state writes an answer\n");
        failed = 1;
    }
    if (verdict != 7 || formula_class != 7 || edges != 7) {
        printf("a refusal writes a value\n");
        failed = 1;
    }
    if (explainer_refusal(EXPLAINER_BUFFER_SHORT) == NULL || explainer_refusal(EXPLAINER_TOO_MANY_SETS) == NULL || explainer_refusal(21) != NULL) {
        printf("explainer_refusal has other words\n");
        failed = 1;
    }
    return failed;
}
