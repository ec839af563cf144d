/* Runs the sheet in a file and prints its values in the order of the plan. */
#include <inttypes.h>
#include <stdio.h>

#include "lindypo.h"

static uint8_t text[LINDYPO_TEXT_MOST + 1]; /* one byte more than a sheet may have */
static int64_t table[LINDYPO_TABLE_MOST], plan[LINDYPO_PLAN_MOST], results[LINDYPO_RESULTS_MOST];

int main(int count, char **words)
{
    FILE *file = count == 2 ? fopen(words[1], "rb") : NULL;
    if (file == NULL) {
        fputs("the file of a sheet, please\n", stderr);
        return 2;
    }
    size_t length = fread(text, 1, sizeof text, file);
    if (ferror(file)) { /* what was read may be a part of the sheet */
        perror(words[1]);
        return 2;
    }
    fclose(file);

    lindypo_reply reply = lindypo_run(text, length, table, LINDYPO_TABLE_MOST, plan,
                                      LINDYPO_PLAN_MOST, results, LINDYPO_RESULTS_MOST);
    if (reply.refusal != 0) {
        printf("refusal %" PRIu64 " at %" PRIu64 "\n", reply.refusal, reply.place);
        return 1;
    }
    printf("%" PRIu64 " values, %s\n", reply.count,
           reply.order == LINDYPO_ORDER_WHOLE ? "whole" : "mixed");
    for (uint64_t i = 0; i < reply.count; i++) {
        const int64_t *line = table + LINDYPO_TABLE_CELLS * (plan[i] - 1);
        const int64_t *result = results + LINDYPO_RESULT_CELLS * (plan[i] - 1);
        printf("%.*s: state %" PRId64 ", number %" PRId64 ", %" PRId64 " steps\n",
               (int)line[LINDYPO_COLUMN_NAME_LENGTH],
               (const char *)text + line[LINDYPO_COLUMN_NAME_START], result[LINDYPO_RESULT_STATE],
               result[LINDYPO_RESULT_NUMBER], result[LINDYPO_RESULT_STEPS]);
    }
    return 0;
}
