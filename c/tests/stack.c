/* Measures the stack that each call takes on each sheet of the files named, and
 * holds it to the constants of include/lindypo.h: prints the most for each call
 * and the file that took it; status 1 where it is more than the constant.
 *
 * A call is made in a thread whose stack is filled beforehand. What is no longer
 * as it was has been used; the thread's own start is counted with it. */
#define _DEFAULT_SOURCE
#include <pthread.h>
#include <stdio.h>
#include <stdlib.h>
#include <string.h>
#include <sys/mman.h>

#include "lindypo.h"

#define STACK ((size_t)2 << 20)
#define FILL 0xA5
#define CELLS(buffer) (sizeof(buffer) / sizeof((buffer)[0]))

static uint8_t text[LINDYPO_TEXT_MOST + 1];
static size_t length;
static int64_t table[LINDYPO_TABLE_MOST], plan[LINDYPO_PLAN_MOST], results[LINDYPO_RESULTS_MOST];
static int64_t order[LINDYPO_PLAN_MOST];
static size_t order_length;
static int64_t pairs[LINDYPO_PAIR_CELLS * LINDYPO_PAIRS_MOST], changes[LINDYPO_CHANGES_MOST];
static size_t pairs_length;
static uint8_t out[LINDYPO_PRINT_MOST];

static void *make_read(void *unused)
{
    lindypo_read(text, length, table, CELLS(table));
    return unused;
}

static void *make_name(void *unused)
{
    lindypo_name(text, length, table, CELLS(table), 2);
    return unused;
}

static void *make_plan(void *unused)
{
    lindypo_plan(text, length, table, CELLS(table), plan, CELLS(plan));
    return unused;
}

static void *make_run(void *unused)
{
    order_length = lindypo_run(text, length, table, CELLS(table), plan, CELLS(plan), results,
                               CELLS(results))
                       .count;
    memcpy(order, plan, sizeof order);
    return unused;
}

/* the order is the plan, which Run has left */
static void *make_follow(void *unused)
{
    lindypo_follow(text, length, order, order_length, table, CELLS(table), results,
                   CELLS(results));
    return unused;
}

/* the pairs are all N lines with the numbers that they have */
static void *make_retouch(void *unused)
{
    lindypo_retouch(text, length, pairs, pairs_length, table, CELLS(table), plan, CELLS(plan),
                    results, CELLS(results), changes, CELLS(changes));
    return unused;
}

static void *make_print(void *unused)
{
    lindypo_print(text, length, out, sizeof out);
    return unused;
}

static struct call {
    const char *name;
    void *(*make)(void *);
    size_t enough;
    size_t most;
    const char *file;
} calls[] = {
    {"Read", make_read, LINDYPO_READ_STACK, 0, ""},
    {"Name", make_name, LINDYPO_NAME_STACK, 0, ""},
    {"Plan", make_plan, LINDYPO_PLAN_STACK, 0, ""},
    {"Run", make_run, LINDYPO_RUN_STACK, 0, ""},
    {"Follow", make_follow, LINDYPO_FOLLOW_STACK, 0, ""},
    {"Retouch", make_retouch, LINDYPO_RETOUCH_STACK, 0, ""},
    {"print", make_print, LINDYPO_PRINT_STACK, 0, ""},
};

static void must(int holds, const char *what)
{
    if (!holds) {
        perror(what);
        exit(2);
    }
}

static size_t measure(uint8_t *stack, void *(*make)(void *))
{
    pthread_attr_t attributes;
    pthread_t thread;
    memset(stack, FILL, STACK);
    must(pthread_attr_init(&attributes) == 0, "attributes");
    must(pthread_attr_setstack(&attributes, stack, STACK) == 0, "a stack");
    must(pthread_create(&thread, &attributes, make, NULL) == 0, "a thread");
    must(pthread_join(thread, NULL) == 0, "the thread's end");
    pthread_attr_destroy(&attributes);
    size_t unused = 0;
    while (unused < STACK && stack[unused] == FILL)
        unused++;
    return STACK - unused;
}

static void read_file(const char *name)
{
    FILE *file = fopen(name, "rb");
    must(file != NULL, name);
    length = fread(text, 1, sizeof text, file);
    must(!ferror(file), name);
    fclose(file);
}

static void list_pairs(void)
{
    uint64_t labels = lindypo_read(text, length, table, CELLS(table)).count;
    pairs_length = 0;
    for (uint64_t label = 1; label <= labels; label++) {
        const int64_t *line = table + LINDYPO_TABLE_CELLS * (label - 1);
        if (line[LINDYPO_COLUMN_KIND] == LINDYPO_KIND_NUMBER) {
            pairs[pairs_length++] = (int64_t)label;
            pairs[pairs_length++] = line[LINDYPO_COLUMN_A];
        }
    }
}

static void measure_file(uint8_t *stack, const char *name)
{
    read_file(name);
    list_pairs();
    for (struct call *call = calls; call < calls + CELLS(calls); call++) {
        size_t used = measure(stack, call->make);
        if (used > call->most) {
            call->most = used;
            call->file = name;
        }
    }
}

int main(int count, char **words)
{
    int over = 0;
    uint8_t *stack = mmap(NULL, STACK, PROT_READ | PROT_WRITE, MAP_PRIVATE | MAP_ANONYMOUS, -1, 0);
    must(stack != MAP_FAILED, "a stack");
    if (count < 2) {
        fputs("files of sheets, please\n", stderr);
        return 2;
    }
    for (int at = 1; at < count; at++)
        measure_file(stack, words[at]);
    for (const struct call *call = calls; call < calls + CELLS(calls); call++) {
        printf("%-7s %6zu of %6zu bytes: %s\n", call->name, call->most, call->enough, call->file);
        over |= call->most > call->enough;
    }
    return over;
}
