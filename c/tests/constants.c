/* Holds the constants of include/lindypo.h to what the library does: for each
 * limit what just keeps it and what does not, for each kind, column, state,
 * order, tie rule, change and refusal a sheet that has it. Prints what is wrong and how many
 * facts were looked at; status 1 where one fails. */
#include <inttypes.h>
#include <stdarg.h>
#include <stdio.h>
#include <string.h>

#include "lindypo.h"

#define CELLS(buffer) (sizeof(buffer) / sizeof((buffer)[0]))

static char text[2 * LINDYPO_TEXT_MOST];
static size_t length;
static int64_t table[LINDYPO_TABLE_MOST], plan[LINDYPO_PLAN_MOST], results[LINDYPO_RESULTS_MOST];
static int64_t pairs[LINDYPO_PAIR_CELLS * (LINDYPO_PAIRS_MOST + 1)];
static int64_t changes[LINDYPO_CHANGE_CELLS * (LINDYPO_PAIRS_MOST + 1)];
static int facts, failures;

static void check(int holds, const char *fact)
{
    facts++;
    if (!holds) {
        failures++;
        printf("fails: %s\n", fact);
    }
}

#define CHECK(fact) check(fact, #fact)

/* Begins a sheet with line one and label 1. */
static void begin(void)
{
    length = 0;
    length += (size_t)sprintf(text, "kind name a b c\nG - 0 - -\n");
}

static void add(const char *form, ...)
{
    va_list words;
    va_start(words, form);
    length += (size_t)vsprintf(text + length, form, words);
    va_end(words);
}

static void sheet(const char *lines)
{
    begin();
    add("%s", lines);
}

static const uint8_t *bytes(void)
{
    return (const uint8_t *)text;
}

static lindypo_reply read_sheet(void)
{
    return lindypo_read(bytes(), length, table, CELLS(table));
}

static lindypo_reply run_sheet(void)
{
    return lindypo_run(bytes(), length, table, CELLS(table), plan, CELLS(plan), results,
                       CELLS(results));
}

/* Retouch with the first so many cells of the list of pairs. */
static lindypo_reply retouch_sheet(size_t pairs_length)
{
    return lindypo_retouch(bytes(), length, pairs, pairs_length, table, CELLS(table), plan,
                           CELLS(plan), results, CELLS(results), changes, CELLS(changes));
}

static uint64_t refusal(void)
{
    return read_sheet().refusal;
}

static int64_t cell(int64_t label, enum lindypo_column column)
{
    return table[LINDYPO_TABLE_CELLS * (label - 1) + column];
}

static int64_t result(int64_t label, enum lindypo_result column)
{
    return results[LINDYPO_RESULT_CELLS * (label - 1) + column];
}

/* ---- limits of a sheet */

/* Lines of spaces: their number and length are what row 1 and row 3 look at. */
static uint64_t refusal_of_length(size_t bytes_wanted)
{
    memset(text, ' ', bytes_wanted);
    text[bytes_wanted - 1] = '\n';
    length = bytes_wanted;
    return refusal();
}

static uint64_t refusal_of_labels(int labels)
{
    begin();
    for (int label = 2; label <= labels; label++)
        add("-\n");
    return refusal();
}

static uint64_t refusal_of_name(int letters)
{
    begin();
    add("G ");
    for (int letter = 0; letter < letters; letter++)
        add("x");
    add(" 1 - -\n");
    return refusal();
}

static uint64_t refusal_of_path(int names)
{
    begin();
    add("V x 1 3 -\nR x");
    for (int name = 1; name < names; name++)
        add(".x");
    add(" - - -\n");
    return refusal();
}

static uint64_t refusal_of_number(int64_t number)
{
    begin();
    add("V x 1 3 -\nN - %" PRId64 " - -\n", number);
    return refusal();
}

/* Calls in each other's argument, a number innermost. */
static uint64_t refusal_of_levels(int levels)
{
    begin();
    add("F f 1 3 -\nP - - - -\nV x 1 5 -\n");
    for (int level = 1; level < levels; level++)
        add("C f %d - -\n", level + 5);
    add("N - 7 - -\n");
    return refusal();
}

static void limits_of_a_sheet(void)
{
    CHECK(refusal_of_length(LINDYPO_TEXT_MOST) == LINDYPO_REFUSAL_FIRST_LINE);
    CHECK(refusal_of_length(LINDYPO_TEXT_MOST + 1) == LINDYPO_REFUSAL_TEXT);
    CHECK(refusal_of_labels(LINDYPO_LABELS_MOST) == LINDYPO_REFUSAL_FIELDS);
    CHECK(refusal_of_labels(LINDYPO_LABELS_MOST + 1) == LINDYPO_REFUSAL_LABELS);
    CHECK(refusal_of_name(LINDYPO_NAME_MOST) == 0);
    CHECK(refusal_of_name(LINDYPO_NAME_MOST + 1) == LINDYPO_REFUSAL_FORM);
    CHECK(refusal_of_path(LINDYPO_PATH_MOST) == LINDYPO_REFUSAL_LATER);
    CHECK(refusal_of_path(LINDYPO_PATH_MOST + 1) == LINDYPO_REFUSAL_FORM);
    CHECK(refusal_of_number(LINDYPO_NUMBER_MOST) == 0);
    CHECK(refusal_of_number(LINDYPO_NUMBER_MOST + (int64_t)1) == LINDYPO_REFUSAL_FORM);
    CHECK(refusal_of_number(-LINDYPO_NUMBER_MOST) == 0);
    CHECK(refusal_of_number(-LINDYPO_NUMBER_MOST - (int64_t)1) == LINDYPO_REFUSAL_FORM);
    CHECK(refusal_of_levels(LINDYPO_LEVELS_MOST) == 0);
    CHECK(refusal_of_levels(LINDYPO_LEVELS_MOST + 1) == LINDYPO_REFUSAL_LEVEL);
}

/* ---- limits of evaluating, and states */

/* A value that calls the first of so many functions, each calling the next. */
static int64_t state_of_depth(int functions)
{
    begin();
    add("V x 1 3 -\nC f1 4 - -\nN - 7 - -\n");
    for (int at = 1; at < functions; at++)
        add("F f%d 1 %d -\nC f%d %d - -\nP - - - -\n", at, 3 * at + 3, at + 1, 3 * at + 4);
    add("F f%d 1 %d -\nP - - - -\n", functions, 3 * functions + 3);
    return run_sheet().refusal == 0 ? result(2, LINDYPO_RESULT_STATE) : -1;
}

/* A value that would take 2^18 steps and more: each function calls the one
 * before it twice. */
static void endless(void)
{
    begin();
    add("F f0 1 3 -\nP - - - -\n");
    for (int at = 1, label = 4; at <= 16; at++, label += 6)
        add("F f%d 1 %d -\nA - %d %d -\nC f%d %d - -\nP - - - -\nC f%d %d - -\nP - - - -\n", at,
            label + 1, label + 2, label + 4, at - 1, label + 3, at - 1, label + 5);
    add("V x 1 101 -\nC f16 102 - -\nN - 1 - -\n");
}

static int64_t state_of_sum(int64_t a, int64_t b)
{
    begin();
    add("V x 1 3 -\nA - 4 5 -\nN - %" PRId64 " - -\nN - %" PRId64 " - -\n", a, b);
    return run_sheet().refusal == 0 ? result(2, LINDYPO_RESULT_STATE) : -1;
}

static void limits_of_evaluating(void)
{
    CHECK(state_of_depth(LINDYPO_DEPTH_MOST) == LINDYPO_STATE_NUMBER);
    CHECK(state_of_depth(LINDYPO_DEPTH_MOST + 1) == LINDYPO_STATE_TOO_DEEP);
    CHECK(state_of_sum(LINDYPO_NUMBER_MOST, 0) == LINDYPO_STATE_NUMBER);
    CHECK(result(2, LINDYPO_RESULT_NUMBER) == LINDYPO_NUMBER_MOST);
    CHECK(result(2, LINDYPO_RESULT_STEPS) == 3);
    CHECK(state_of_sum(LINDYPO_NUMBER_MOST, 1) == LINDYPO_STATE_OUT_OF_RANGE);
    endless();
    CHECK(run_sheet().refusal == 0);
    CHECK(result(100, LINDYPO_RESULT_STATE) == LINDYPO_STATE_OUT_OF_STEPS);
    CHECK(result(100, LINDYPO_RESULT_STEPS) == LINDYPO_STEPS_MOST);
    sheet("V x 1 3 -\nD - 4 5 -\nN - 7 - -\nN - 0 - -\n");
    CHECK(run_sheet().refusal == 0);
    CHECK(result(2, LINDYPO_RESULT_STATE) == LINDYPO_STATE_ZERO_DIVISOR);
    CHECK(result(1, LINDYPO_RESULT_STATE) == 0);
}

/* ---- lengths of buffers */

/* Run lent as many cells as a sheet of two labels needs, or fewer. */
static lindypo_reply run_in(size_t table_cells, size_t plan_cells, size_t result_cells)
{
    sheet("G x 1 - -\n");
    return lindypo_run(bytes(), length, table, table_cells, plan, plan_cells, results,
                       result_cells);
}

static int is_short(lindypo_reply reply, enum lindypo_place place)
{
    return reply.refusal == LINDYPO_REFUSAL_BUFFERS && reply.place == place;
}

static void lengths_of_buffers(void)
{
    size_t cells = 2 * LINDYPO_TABLE_CELLS, result_cells = 2 * LINDYPO_RESULT_CELLS;
    CHECK(run_in(cells, 2, result_cells).refusal == 0);
    CHECK(is_short(run_in(cells - 1, 2, result_cells), LINDYPO_PLACE_TABLE));
    CHECK(is_short(run_in(cells, 1, result_cells), LINDYPO_PLACE_PLAN));
    CHECK(is_short(run_in(cells, 2, result_cells - 1), LINDYPO_PLACE_RESULTS));
}

/* Retouch lent so many cells for the changes of two pairs and a half. */
static lindypo_reply retouch_in(size_t change_cells)
{
    return lindypo_retouch(bytes(), length, pairs, 5, table, CELLS(table), plan, CELLS(plan),
                           results, CELLS(results), changes, change_cells);
}

static void lengths_of_changes(void)
{
    sheet("V x 1 3 -\nN - 7 - -\n");
    memset(pairs, 0, sizeof pairs);
    CHECK(retouch_in(2 * LINDYPO_CHANGE_CELLS).refusal == LINDYPO_REFUSAL_PAIRS);
    CHECK(is_short(retouch_in(2 * LINDYPO_CHANGE_CELLS - 1), LINDYPO_PLACE_CHANGES));
}

/* The print of as many values as a sheet has room for, with the longest names and
 * numbers; it needs all but a part of what is enough for every print. */
static void length_of_a_print(void)
{
    static uint8_t out[LINDYPO_PRINT_MOST + 1];
    begin();
    for (int value = 0; value < 511; value++)
        add("V decentration%04d 1 %d -\nN - %d - -\n", value, 2 * value + 3, -LINDYPO_NUMBER_MOST);
    lindypo_printed printed = lindypo_print(bytes(), length, out, sizeof out);
    CHECK(printed.refusal == 0);
    CHECK(printed.length > LINDYPO_PRINT_MOST / 3 && printed.length <= LINDYPO_PRINT_MOST);
    CHECK(out[printed.length - 1] == '\n' && out[printed.length] == 0);
}

/* ---- kinds, columns and orders */

static void kinds(void)
{
    sheet("V v 1 4 -\nF f 1 5 -\nN - 7 - -\nI - 6 7 10\nP - - - -\nA - 8 9 -\nR v - - -\n"
          "C f 12 - -\nS - 11 13 -\nN - 1 - -\nM - 14 15 -\nD - 16 17 -\n"
          "N - 2 - -\nN - 3 - -\nN - 4 - -\nN - 5 - -\n");
    CHECK(refusal() == 0);
    CHECK(cell(1, LINDYPO_COLUMN_KIND) == LINDYPO_KIND_GROUP);
    CHECK(cell(2, LINDYPO_COLUMN_KIND) == LINDYPO_KIND_VALUE);
    CHECK(cell(3, LINDYPO_COLUMN_KIND) == LINDYPO_KIND_FUNCTION);
    CHECK(cell(4, LINDYPO_COLUMN_KIND) == LINDYPO_KIND_NUMBER);
    CHECK(cell(5, LINDYPO_COLUMN_KIND) == LINDYPO_KIND_CHOICE);
    CHECK(cell(6, LINDYPO_COLUMN_KIND) == LINDYPO_KIND_ARGUMENT);
    CHECK(cell(7, LINDYPO_COLUMN_KIND) == LINDYPO_KIND_SUM);
    CHECK(cell(8, LINDYPO_COLUMN_KIND) == LINDYPO_KIND_READ);
    CHECK(cell(9, LINDYPO_COLUMN_KIND) == LINDYPO_KIND_CALL);
    CHECK(cell(10, LINDYPO_COLUMN_KIND) == LINDYPO_KIND_DIFFERENCE);
    CHECK(cell(12, LINDYPO_COLUMN_KIND) == LINDYPO_KIND_PRODUCT);
    CHECK(cell(13, LINDYPO_COLUMN_KIND) == LINDYPO_KIND_QUOTIENT);
}

static void columns(void)
{
    sheet("G g 1 - -\nF f 2 5 -\nV v 2 9 -\nI - 6 7 8\nP - - - -\nN - -5 - -\nN - 8 - -\n"
          "C f 10 - -\nN - 4 - -\n");
    CHECK(refusal() == 0);
    CHECK(cell(3, LINDYPO_COLUMN_NAME_LENGTH) == 1);
    CHECK(text[cell(3, LINDYPO_COLUMN_NAME_START)] == 'f');
    CHECK(cell(3, LINDYPO_COLUMN_A) == 2);
    CHECK(cell(3, LINDYPO_COLUMN_B) == 5);
    CHECK(cell(5, LINDYPO_COLUMN_C) == 8);
    CHECK(cell(7, LINDYPO_COLUMN_A) == -5);
    CHECK(cell(3, LINDYPO_COLUMN_OWNER) == 2);
    CHECK(cell(8, LINDYPO_COLUMN_OWNER) == 3);
    CHECK(cell(9, LINDYPO_COLUMN_TARGET) == 3);
}

static void orders(void)
{
    sheet("V x 1 3 -\nN - 7 - -\n");
    CHECK(run_sheet().order == LINDYPO_ORDER_WHOLE);
    sheet("G l 1 - -\nG r 1 - -\nV a 2 8 -\nV b 2 9 -\nV c 3 10 -\nV d 3 11 -\nR r.c - - -\n"
          "N - 1 - -\nN - 2 - -\nR l.b - - -\n");
    CHECK(run_sheet().order == LINDYPO_ORDER_MIXED);
}

/* ---- tie rules */

/* a / b under a line one, by Run, else -1. */
static int64_t quotient(const char *first_line, int64_t a, int64_t b)
{
    length = (size_t)sprintf(text,
                             "%s\nG - 0 - -\nV x 1 3 -\nD - 4 5 -\nN - %" PRId64
                             " - -\nN - %" PRId64 " - -\n",
                             first_line, a, b);
    return run_sheet().refusal == 0 ? result(2, LINDYPO_RESULT_NUMBER) : -1;
}

/* LINDYPO_TIES_AWAY and LINDYPO_TIES_EVEN, by the lines that name them. */
static void ties(void)
{
    const char *away = "kind name a b c", *even = "kind2 name a b c";
    CHECK(quotient(away, -3250, 100) == -33);
    CHECK(text[cell(2, LINDYPO_COLUMN_NAME_START)] == 'x');
    CHECK(quotient(even, -3250, 100) == -32);
    CHECK(text[cell(2, LINDYPO_COLUMN_NAME_START)] == 'x');
    CHECK(quotient(away, 250, -100) == -3);
    CHECK(quotient(even, 250, -100) == -2);
    CHECK(quotient(away, 350, -100) == -4);
    CHECK(quotient(even, 350, -100) == -4);
    CHECK(quotient("kind3 name a b c", 350, -100) == -1);
    pairs[0] = 4;
    pairs[1] = 50;
    CHECK(quotient(away, 0, 100) == 0);
    CHECK(retouch_sheet(LINDYPO_PAIR_CELLS).refusal == 0);
    CHECK(result(2, LINDYPO_RESULT_NUMBER) == 1);
    CHECK(quotient(even, 200, 100) == 2);
    CHECK(retouch_sheet(LINDYPO_PAIR_CELLS).refusal == 0);
    CHECK(result(2, LINDYPO_RESULT_NUMBER) == 0);
}

/* ---- pairs and changes */

static int64_t change(int pair, enum lindypo_change column)
{
    return changes[LINDYPO_CHANGE_CELLS * (pair - 1) + column];
}

static void put(int pair, int64_t label, int64_t number)
{
    pairs[LINDYPO_PAIR_CELLS * (pair - 1)] = label;
    pairs[LINDYPO_PAIR_CELLS * (pair - 1) + 1] = number;
}

/* 100 / y, y and z, of which the first pair makes y 0 and the second z 8. */
static void pairs_and_changes(void)
{
    sheet("V x 1 5 -\nV y 1 8 -\nV z 1 9 -\nD - 6 7 -\nN - 100 - -\nR y - - -\nN - 5 - -\n"
          "N - 7 - -\n");
    put(1, 8, 0);
    put(2, 9, 8);
    CHECK(retouch_sheet(2 * LINDYPO_PAIR_CELLS).refusal == 0);
    CHECK(cell(8, LINDYPO_COLUMN_A) == 0 && cell(9, LINDYPO_COLUMN_A) == 8);
    CHECK(result(2, LINDYPO_RESULT_STATE) == LINDYPO_STATE_ZERO_DIVISOR);
    CHECK(result(4, LINDYPO_RESULT_NUMBER) == 8);
    CHECK(change(1, LINDYPO_CHANGE_REDONE) == 2 && change(2, LINDYPO_CHANGE_REDONE) == 1);
    CHECK(change(1, LINDYPO_CHANGE_FAILING) == 1 && change(2, LINDYPO_CHANGE_FAILING) == 1);
    CHECK(change(1, LINDYPO_CHANGE_STEPS) == 5 && change(2, LINDYPO_CHANGE_STEPS) == 5);
    CHECK(changes[2 * LINDYPO_CHANGE_CELLS] == 0);
}

static lindypo_reply retouched(int64_t label, int64_t number)
{
    put(1, label, number);
    return retouch_sheet(LINDYPO_PAIR_CELLS);
}

static void refusals_of_pairs(void)
{
    sheet("V x 1 3 -\nN - 7 - -\n");
    for (int pair = 1; pair <= LINDYPO_PAIRS_MOST + 1; pair++)
        put(pair, 3, pair);
    size_t most = LINDYPO_PAIR_CELLS * LINDYPO_PAIRS_MOST;
    CHECK(retouch_sheet(most).refusal == 0);
    CHECK(result(2, LINDYPO_RESULT_NUMBER) == LINDYPO_PAIRS_MOST);
    CHECK(change(LINDYPO_PAIRS_MOST, LINDYPO_CHANGE_REDONE) == 1);
    CHECK(retouch_sheet(most + LINDYPO_PAIR_CELLS).refusal == LINDYPO_REFUSAL_PAIRS);
    CHECK(retouch_sheet(3).refusal == LINDYPO_REFUSAL_PAIRS && retouch_sheet(3).place == 0);
    CHECK(retouched(3, LINDYPO_NUMBER_MOST).refusal == 0);
    CHECK(retouched(3, -LINDYPO_NUMBER_MOST).refusal == 0);
    CHECK(retouched(3, LINDYPO_NUMBER_MOST + (int64_t)1).refusal == LINDYPO_REFUSAL_PAIR_NUMBER);
    CHECK(retouched(3, -LINDYPO_NUMBER_MOST - (int64_t)1).refusal == LINDYPO_REFUSAL_PAIR_NUMBER);
    CHECK(retouched(2, INT64_MAX).refusal == LINDYPO_REFUSAL_PAIR_LABEL);
    CHECK(retouched(4, 7).refusal == LINDYPO_REFUSAL_PAIR_LABEL && retouched(4, 7).place == 1);
    put(1, 3, 7);
    put(2, 0, 7);
    CHECK(retouch_sheet(2 * LINDYPO_PAIR_CELLS).place == 2);
}

/* ---- refusals */

static uint64_t refusal_of(const char *lines)
{
    sheet(lines);
    return run_sheet().refusal;
}

static lindypo_reply followed(const int64_t *order, size_t count)
{
    sheet("V x 1 3 -\nR y - - -\nV y 1 5 -\nN - 7 - -\n");
    return lindypo_follow(bytes(), length, order, count, table, CELLS(table), results,
                          CELLS(results));
}

static void refusals(void)
{
    const int64_t early[] = {2, 4}, twice[] = {4, 4};
    CHECK(refusal_of("G x 1 - -\t\n") == LINDYPO_REFUSAL_TEXT);
    length = (size_t)sprintf(text, "kind name a b\n");
    CHECK(refusal() == LINDYPO_REFUSAL_FIRST_LINE);
    length = (size_t)sprintf(text, "kind name a b c\n");
    CHECK(refusal() == LINDYPO_REFUSAL_LABELS);
    CHECK(refusal_of("G x 1 -\n") == LINDYPO_REFUSAL_FIELDS);
    CHECK(refusal_of("X x 1 - -\n") == LINDYPO_REFUSAL_KIND);
    CHECK(refusal_of("G 1 1 - -\n") == LINDYPO_REFUSAL_FORM);
    CHECK(refusal_of("G x 2 - -\n") == LINDYPO_REFUSAL_STRUCTURE);
    CHECK(refusal_of("N - 7 - -\n") == LINDYPO_REFUSAL_USES);
    CHECK(refusal_of("V x 1 3 -\nP - - - -\n") == LINDYPO_REFUSAL_ARGUMENT);
    CHECK(refusal_of("G x 1 - -\nG x 1 - -\n") == LINDYPO_REFUSAL_DUPLICATE);
    CHECK(refusal_of("V x 1 3 -\nR y - - -\n") == LINDYPO_REFUSAL_HEAD);
    CHECK(refusal_of("V x 1 3 -\nR x.y - - -\n") == LINDYPO_REFUSAL_LATER);
    CHECK(refusal_of("V x 1 4 -\nG y 1 - -\nR y - - -\n") == LINDYPO_REFUSAL_TARGET);
    CHECK(refusal_of("V x 1 3 -\nR x - - -\n") == LINDYPO_REFUSAL_CYCLE);
    CHECK(followed(twice, 2).refusal == LINDYPO_REFUSAL_LISTED);
    CHECK(followed(twice, 2).place == 2);
    CHECK(followed(twice, 1).place == 2);
    CHECK(followed(early, 2).refusal == LINDYPO_REFUSAL_EARLY);
}

int main(void)
{
    limits_of_a_sheet();
    limits_of_evaluating();
    lengths_of_buffers();
    lengths_of_changes();
    length_of_a_print();
    kinds();
    columns();
    orders();
    ties();
    pairs_and_changes();
    refusals_of_pairs();
    refusals();
    printf("%d facts, %d fail\n", facts, failures);
    return failures != 0;
}
