/* Makes every call on the sheet in the file named first and prints what they
 * answer, the name field of the label named second among it. It holds
 * include/lindypo.h to the library: a declaration that does not fit gives
 * another print. */
#include <inttypes.h>
#include <stdio.h>
#include <stdlib.h>
#include <string.h>

#include "lindypo.h"

#define LABELS 1024
#define CELLS(buffer) (sizeof(buffer) / sizeof((buffer)[0]))

static uint8_t text[65537];
static size_t length;

static int64_t table[8 * LABELS], plan[LABELS];
static int64_t results[3 * LABELS], followed[3 * LABELS];
static int64_t changes[3 * LABELS];

static void print_reply(const char *call, lindypo_reply reply)
{
    printf("%s: refusal %" PRIu64 ", place %" PRIu64 ", count %" PRIu64
           ", order %" PRIu64 "\n",
           call, reply.refusal, reply.place, reply.count, reply.order);
}

static void read_and_name(int64_t label)
{
    print_reply("read", lindypo_read(text, length, table, CELLS(table)));
    lindypo_part part = lindypo_name(text, length, table, CELLS(table), label);
    printf("name of %" PRId64 ": %.*s\n", label, (int)part.length,
           (const char *)text + part.start);
}

/* The value's label and name, then state, number and steps. */
static void print_value(int64_t label)
{
    const int64_t *line = table + 8 * (label - 1);
    const int64_t *result = results + 3 * (label - 1);
    printf("%" PRId64 " %.*s %" PRId64 " %" PRId64 " %" PRId64 "\n", label,
           (int)line[2], (const char *)text + line[1], result[0], result[1],
           result[2]);
}

static size_t plan_and_run(void)
{
    print_reply("plan", lindypo_plan(text, length, table, CELLS(table), plan,
                                     CELLS(plan)));
    lindypo_reply reply = lindypo_run(text, length, table, CELLS(table), plan,
                                      CELLS(plan), results, CELLS(results));
    print_reply("run", reply);
    for (size_t at = 0; at < reply.count; at++)
        print_value(plan[at]);
    return reply.count;
}

static void follow(const char *call, const int64_t *order, size_t count)
{
    memset(followed, -1, sizeof followed);
    print_reply(call, lindypo_follow(text, length, order, count, table,
                                     CELLS(table), followed, CELLS(followed)));
    int same = memcmp(results, followed, sizeof results) == 0;
    printf("results %s those of run\n", same ? "are" : "are not");
}

static void follow_both_ways(size_t count)
{
    static int64_t reversed[LABELS];
    for (size_t at = 0; at < count; at++)
        reversed[at] = plan[count - 1 - at];
    follow("follow the plan", plan, count);
    follow("follow it from the end", reversed, count);
}

/* A list of so many cells: what it answers, the changes of its pairs, and what
 * the values then come to. */
static void retouch(const int64_t *pairs, size_t cells)
{
    memset(changes, -1, sizeof changes);
    lindypo_reply reply =
        lindypo_retouch(text, length, pairs, cells, table, CELLS(table), plan,
                        CELLS(plan), results, CELLS(results), changes, CELLS(changes));
    print_reply("retouch", reply);
    for (size_t pair = 0; pair < cells / 2; pair++)
        printf("pair %zu: redone %" PRId64 ", failing %" PRId64 ", steps %" PRId64 "\n",
               pair + 1, changes[3 * pair], changes[3 * pair + 1], changes[3 * pair + 2]);
    for (size_t at = 0; at < reply.count; at++)
        print_value(plan[at]);
}

/* The last two N lines with new numbers, the second list with one that is too
 * large, the third without its last cell. */
static void retouch_in_turn(void)
{
    int64_t pairs[4] = {0, -400, 0, 7};
    size_t found = 0;
    for (int64_t label = LABELS; label >= 1 && found < 2; label--)
        if (table[8 * (label - 1)] == LINDYPO_KIND_NUMBER)
            pairs[2 * found++] = label;
    retouch(pairs, 2 * found);
    pairs[3] = LINDYPO_NUMBER_MOST + (int64_t)1;
    retouch(pairs, 2 * found);
    retouch(pairs, 1);
}

/* The print in a buffer of so many bytes: what it answers, how many zeros are
 * behind it, and the print as far as it goes. */
static void print_in(size_t room)
{
    static uint8_t out[LINDYPO_PRINT_MOST];
    memset(out, -1, sizeof out);
    lindypo_printed printed = lindypo_print(text, length, out, room);
    size_t shown = printed.length < room ? printed.length : room;
    size_t end = shown;
    while (end < room && out[end] == 0)
        end++;
    printf("print in %zu bytes: refusal %" PRIu64 ", place %" PRIu64 ", length %" PRIu64
           ", %zu zeros\n%.*s\n",
           room, printed.refusal, printed.place, printed.length, end - shown, (int)shown,
           (const char *)out);
}

int main(int count, char **words)
{
    if (count != 3) {
        fputs("a file and a label, please\n", stderr);
        return 2;
    }
    FILE *file = fopen(words[1], "rb");
    if (file == NULL) {
        perror(words[1]);
        return 2;
    }
    length = fread(text, 1, sizeof text, file);
    fclose(file);
    read_and_name(strtoll(words[2], NULL, 10));
    follow_both_ways(plan_and_run());
    lindypo_read(text, length, table, CELLS(table));
    retouch_in_turn();
    print_in(LINDYPO_PRINT_MOST);
    print_in(5);
    return 0;
}
