/* Runs the sheet in a file and prints the value with a full name, or in words why
 * there is none. It needs an installed library: the proved one in the repository
 * has no words. */
#include <inttypes.h>
#include <stdio.h>

#include "lindypo.h"

static uint8_t text[LINDYPO_TEXT_MOST + 1];
static int64_t table[LINDYPO_TABLE_MOST], plan[LINDYPO_PLAN_MOST], results[LINDYPO_RESULTS_MOST];

/* Prints what a definition came to; label 0 is none. */
static int print_value(const char *name, int64_t label)
{
    if (label == 0) {
        printf("there is no %s\n", name);
        return 1;
    }
    const int64_t *result = results + LINDYPO_RESULT_CELLS * (label - 1);
    if (result[LINDYPO_RESULT_STATE] == LINDYPO_STATE_NUMBER)
        printf("%s is %" PRId64 "\n", name, result[LINDYPO_RESULT_NUMBER]);
    else
        printf("%s: %s\n", name, lindypo_state_words(result[LINDYPO_RESULT_STATE]));
    return 0;
}

int main(int count, char **words)
{
    FILE *file = count == 3 ? fopen(words[1], "rb") : NULL;
    if (file == NULL) {
        fputs("the file of a sheet and a full name, please\n", stderr);
        return 2;
    }
    size_t length = fread(text, 1, sizeof text, file);
    if (ferror(file)) {
        perror(words[1]);
        return 2;
    }
    fclose(file);

    lindypo_reply reply = lindypo_run(text, length, table, LINDYPO_TABLE_MOST, plan,
                                      LINDYPO_PLAN_MOST, results, LINDYPO_RESULTS_MOST);
    if (reply.refusal != 0) {
        printf("refusal %" PRIu64 " at %" PRIu64 ": %s\n", reply.refusal, reply.place,
               lindypo_refusal_words(reply.refusal));
        return 1;
    }
    return print_value(words[2], lindypo_find(text, length, table, LINDYPO_TABLE_MOST, words[2]));
}
