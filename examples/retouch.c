/* Puts a new number into the sheet in a file and prints the values that change.
 * The number is that of a value with a full name, or of an N line by its label.
 * It needs an installed library: the proved one in the repository finds no
 * names. */
#include <inttypes.h>
#include <stdio.h>
#include <stdlib.h>

#include "lindypo.h"

static uint8_t text[LINDYPO_TEXT_MOST + 1];
static size_t length;
static int64_t table[LINDYPO_TABLE_MOST], plan[LINDYPO_PLAN_MOST];
static int64_t before[LINDYPO_RESULTS_MOST], after[LINDYPO_RESULTS_MOST];

static int read_file(const char *name)
{
    FILE *file = fopen(name, "rb");
    if (file == NULL)
        return 0;
    length = fread(text, 1, sizeof text, file);
    int is_whole = !ferror(file);
    fclose(file);
    return is_whole;
}

static int refused(lindypo_reply reply)
{
    if (reply.refusal != 0)
        printf("refusal %" PRIu64 " at %" PRIu64 ": %s\n", reply.refusal, reply.place,
               lindypo_refusal_words(reply.refusal));
    return reply.refusal != 0;
}

/* The body of the value with this full name, else the word as a label. What is no
 * N line is for Retouch to refuse. */
static int64_t label_of(const char *word)
{
    int64_t value = lindypo_find(text, length, table, LINDYPO_TABLE_MOST, word);
    if (value == 0)
        return strtoll(word, NULL, 10);
    return table[LINDYPO_TABLE_CELLS * (value - 1) + LINDYPO_COLUMN_B];
}

static void print_state(const int64_t *result)
{
    if (result[LINDYPO_RESULT_STATE] == LINDYPO_STATE_NUMBER)
        printf("%" PRId64, result[LINDYPO_RESULT_NUMBER]);
    else
        printf("%s", lindypo_state_words(result[LINDYPO_RESULT_STATE]));
}

static void print_change(int64_t label)
{
    const int64_t *line = table + LINDYPO_TABLE_CELLS * (label - 1);
    const int64_t *then = before + LINDYPO_RESULT_CELLS * (label - 1);
    const int64_t *now = after + LINDYPO_RESULT_CELLS * (label - 1);
    if (then[LINDYPO_RESULT_STATE] == now[LINDYPO_RESULT_STATE] &&
        then[LINDYPO_RESULT_NUMBER] == now[LINDYPO_RESULT_NUMBER])
        return;
    printf("%.*s: ", (int)line[LINDYPO_COLUMN_NAME_LENGTH],
           (const char *)text + line[LINDYPO_COLUMN_NAME_START]);
    print_state(then);
    printf(", now ");
    print_state(now);
    printf("\n");
}

int main(int count, char **words)
{
    if (count != 4 || !read_file(words[1])) {
        fputs("the file of a sheet, a full name or label and a number, please\n", stderr);
        return 2;
    }
    if (refused(lindypo_run(text, length, table, LINDYPO_TABLE_MOST, plan, LINDYPO_PLAN_MOST,
                            before, LINDYPO_RESULTS_MOST)))
        return 1;

    int64_t pair[LINDYPO_PAIR_CELLS] = {label_of(words[2]), strtoll(words[3], NULL, 10)};
    int64_t change[LINDYPO_CHANGE_CELLS];
    lindypo_reply reply = lindypo_retouch(
        text, length, pair, LINDYPO_PAIR_CELLS, table, LINDYPO_TABLE_MOST, plan, LINDYPO_PLAN_MOST,
        after, LINDYPO_RESULTS_MOST, change, LINDYPO_CHANGE_CELLS);
    if (refused(reply))
        return 1;
    printf("%" PRId64 " of %" PRIu64 " values evaluated again, %" PRId64 " fail, %" PRId64
           " steps in all\n",
           change[LINDYPO_CHANGE_REDONE], reply.count, change[LINDYPO_CHANGE_FAILING],
           change[LINDYPO_CHANGE_STEPS]);
    for (uint64_t i = 0; i < reply.count; i++)
        print_change(plan[i]);
    return 0;
}
