/* Makes all six calls and the print on what a fuzzer's input stands for, and
 * ends the process where a reply, a cell or a byte is not the one that the
 * reference gives.
 *
 * The library itself, as it is shipped, is called twice: lent parts at the end
 * and at the start of their rooms, with different old contents, in a thread
 * stack of 2 MiB. Then its twin is called: the same module compiled with
 * AddressSanitizer, and with its branches counted to guide the fuzzer. */
#include <inttypes.h>
#include <pthread.h>
#include <semaphore.h>
#include <stdarg.h>
#include <stdio.h>
#include <stdlib.h>
#include <string.h>

#include "edges.h"
#include "oracle.h"
#include "rooms.h"

/* What libFuzzer calls, and its own changes to bytes. */
int LLVMFuzzerInitialize(int *count, char ***words);
int LLVMFuzzerTestOneInput(const uint8_t *data, size_t size);
size_t LLVMFuzzerCustomMutator(uint8_t *data, size_t size, size_t room, unsigned seed);
size_t LLVMFuzzerCustomCrossOver(const uint8_t *first, size_t first_size,
                                 const uint8_t *second, size_t second_size,
                                 uint8_t *data, size_t room, unsigned seed);
size_t LLVMFuzzerMutate(uint8_t *data, size_t size, size_t room);

typedef struct {
    const char *name;
    __typeof__(lindypo_read) *read;
    __typeof__(lindypo_name) *find_name;
    __typeof__(lindypo_plan) *plan;
    __typeof__(lindypo_run) *run;
    __typeof__(lindypo_follow) *follow;
    __typeof__(lindypo_retouch) *retouch;
    __typeof__(lindypo_print) *print;
} library;

__typeof__(lindypo_read) twin_read;
__typeof__(lindypo_name) twin_name;
__typeof__(lindypo_plan) twin_plan;
__typeof__(lindypo_run) twin_run;
__typeof__(lindypo_follow) twin_follow;
__typeof__(lindypo_retouch) twin_retouch;
__typeof__(lindypo_print) twin_print;

static const library shipped = {"library", lindypo_read, lindypo_name, lindypo_plan,
                                lindypo_run, lindypo_follow, lindypo_retouch, lindypo_print};
static const library twin = {"twin", twin_read, twin_name, twin_plan,
                             twin_run, twin_follow, twin_retouch, twin_print};

static const char *const call_names[CALLS] = {"Read", "Plan", "Run", "Follow", "Retouch"};
static const char *const buffer_names[BUFFERS] = {"table", "plan", "results", "changes"};

/* Whether a call is lent a buffer. */
static const int is_lent[CALLS][BUFFERS] = {
    {1, 0, 0, 0}, {1, 1, 0, 0}, {1, 1, 1, 0}, {1, 0, 1, 0}, {1, 1, 1, 1}};

/* One library's turn at one input: where its parts stand in their rooms, and
 * what its buffers hold beforehand. */
typedef struct {
    const library *library;
    const execution *execution;
    enum side side;
    uint64_t rubbish, step;
    const uint8_t *text;
    const int64_t *order, *pairs;
    int64_t *cells[BUFFERS];
    uint8_t *out;
} turn;

static room text_room, order_room, pairs_room, rooms[BUFFERS], print_room;
static oracle *reference;
static uint8_t *stack;
static const execution *at_hand;
static sem_t begin, end;

static void print_list(const char *name, const int64_t *list, size_t length)
{
    fprintf(stderr, "%s:", name);
    for (size_t at = 0; at < length; at++)
        fprintf(stderr, " %" PRId64, list[at]);
    fputc('\n', stderr);
}

static void print_input(const execution *execution)
{
    fprintf(stderr, "lengths: table %zu, plan %zu, results %zu, changes %zu, print %zu; label %"
            PRId64 "\n",
            execution->lengths[TABLE], execution->lengths[PLANNED],
            execution->lengths[RESULTS], execution->lengths[CHANGES],
            execution->print_length, execution->label);
    print_list("order", execution->order, execution->order_length);
    print_list("pairs", execution->pairs, execution->pairs_length);
    fprintf(stderr, "text, %zu bytes:\n", execution->text_length);
    for (size_t at = 0; at < execution->text_length; at++) {
        uint8_t byte = execution->text[at];
        int plain = byte == '\n' || (byte >= 32 && byte <= 126);
        fprintf(stderr, plain ? "%c" : "\\x%02x", byte);
    }
}

static _Noreturn void differ(const turn *turn, const char *call, const char *format, ...)
{
    va_list words;
    va_start(words, format);
    fprintf(stderr, "DIFFERENCE: %s of the %s, lent at the %s of rooms: ", call,
            turn->library->name, turn->side == AT_START ? "start" : "end");
    vfprintf(stderr, format, words);
    fputc('\n', stderr);
    va_end(words);
    print_input(turn->execution);
    abort();
}

static void fill(const turn *turn, enum buffer buffer)
{
    size_t length = turn->execution->lengths[buffer];
    for (size_t at = 0; at < length; at++)
        turn->cells[buffer][at] = (int64_t)(turn->rubbish + turn->step * at);
    set_canaries(&rooms[buffer], turn->side, length * sizeof(int64_t));
}

static void compare(const turn *turn, const char *call, enum buffer buffer, const int64_t *wanted)
{
    size_t length = turn->execution->lengths[buffer];
    const int64_t *given = turn->cells[buffer];
    if (length > 0 && memcmp(given, wanted, length * sizeof(int64_t)) != 0) {
        size_t at = 0;
        while (given[at] == wanted[at])
            at++;
        differ(turn, call, "cell %zu of the %s is %" PRId64 ", wanted %" PRId64, at,
               buffer_names[buffer], given[at], wanted[at]);
    }
    if (!canaries_stand(&rooms[buffer], turn->side, length * sizeof(int64_t)))
        differ(turn, call, "cells beside the %s were written", buffer_names[buffer]);
}

static lindypo_reply make_call(const turn *turn, enum call call)
{
    const library *library = turn->library;
    const uint8_t *text = turn->text;
    size_t size = turn->execution->text_length;
    int64_t *const *cells = turn->cells;
    const size_t *lengths = turn->execution->lengths;
    switch (call) {
    case READ:
        return library->read(text, size, cells[TABLE], lengths[TABLE]);
    case PLAN:
        return library->plan(text, size, cells[TABLE], lengths[TABLE],
                             cells[PLANNED], lengths[PLANNED]);
    case RUN:
        return library->run(text, size, cells[TABLE], lengths[TABLE],
                            cells[PLANNED], lengths[PLANNED],
                            cells[RESULTS], lengths[RESULTS]);
    case FOLLOW:
        return library->follow(text, size, turn->order, turn->execution->order_length,
                               cells[TABLE], lengths[TABLE],
                               cells[RESULTS], lengths[RESULTS]);
    default:
        return library->retouch(text, size, turn->pairs, turn->execution->pairs_length,
                                cells[TABLE], lengths[TABLE],
                                cells[PLANNED], lengths[PLANNED],
                                cells[RESULTS], lengths[RESULTS],
                                cells[CHANGES], lengths[CHANGES]);
    }
}

static void try_call(const turn *turn, enum call call)
{
    for (enum buffer buffer = TABLE; buffer < BUFFERS; buffer++)
        if (is_lent[call][buffer])
            fill(turn, buffer);
    lindypo_reply given = make_call(turn, call);
    const wanted *wanted = &turn->execution->wanted[call];
    if (memcmp(&given, &wanted->reply, sizeof given) != 0)
        differ(turn, call_names[call],
               "replied %" PRIu64 " %" PRIu64 " %" PRIu64 " %" PRIu64
               ", wanted %" PRIu64 " %" PRIu64 " %" PRIu64 " %" PRIu64,
               given.refusal, given.place, given.count, given.order,
               wanted->reply.refusal, wanted->reply.place,
               wanted->reply.count, wanted->reply.order);
    for (enum buffer buffer = TABLE; buffer < BUFFERS; buffer++)
        if (is_lent[call][buffer])
            compare(turn, call_names[call], buffer, wanted->cells[buffer]);
}

static void try_name(const turn *turn)
{
    const execution *execution = turn->execution;
    fill(turn, TABLE);
    lindypo_part given =
        turn->library->find_name(turn->text, execution->text_length, turn->cells[TABLE],
                                 execution->lengths[TABLE], execution->label);
    if (given.start != execution->name.start || given.length != execution->name.length)
        differ(turn, "Name", "gave %" PRIu64 " %" PRIu64 ", wanted %" PRIu64 " %" PRIu64,
               given.start, given.length, execution->name.start, execution->name.length);
    compare(turn, "Name", TABLE, execution->wanted[READ].cells[TABLE]);
}

/* The byte at which the print is not the one wanted; the length where it is. */
static size_t differing_byte(const uint8_t *given, const uint8_t *wanted, size_t length)
{
    size_t at = 0;
    while (at < length && given[at] == wanted[at])
        at++;
    return at;
}

static void try_print(const turn *turn)
{
    const execution *execution = turn->execution;
    const lindypo_printed *wanted = &execution->printed;
    size_t length = execution->print_length;
    for (size_t at = 0; at < length; at++)
        turn->out[at] = (uint8_t)(turn->rubbish + turn->step * at);
    set_canaries(&print_room, turn->side, length);
    lindypo_printed given =
        turn->library->print(turn->text, execution->text_length, turn->out, length);
    if (memcmp(&given, wanted, sizeof given) != 0)
        differ(turn, "print",
               "answered %" PRIu64 " %" PRIu64 " %" PRIu64
               ", wanted %" PRIu64 " %" PRIu64 " %" PRIu64,
               given.refusal, given.place, given.length,
               wanted->refusal, wanted->place, wanted->length);
    size_t at = differing_byte(turn->out, execution->print, length);
    if (at < length)
        differ(turn, "print", "byte %zu is %u, wanted %u", at, turn->out[at],
               execution->print[at]);
    if (!canaries_stand(&print_room, turn->side, length))
        differ(turn, "print", "bytes beside it were written");
}

/* All six calls and the print; each cell is at first `rubbish`, plus `step` for
 * each before it. */
static void take_turn(const library *library, enum side side, uint64_t rubbish, uint64_t step)
{
    const execution *execution = at_hand;
    size_t order_bytes = execution->order_length * sizeof(int64_t);
    turn turn = {.library = library, .execution = execution, .side = side,
                 .rubbish = rubbish, .step = step};
    turn.text = lend_copy(&text_room, side, execution->text, execution->text_length);
    turn.order = lend_copy(&order_room, side, execution->order, order_bytes);
    turn.pairs = lend_copy(&pairs_room, side, execution->pairs,
                           execution->pairs_length * sizeof(int64_t));
    for (enum buffer buffer = TABLE; buffer < BUFFERS; buffer++)
        turn.cells[buffer] =
            lend(&rooms[buffer], side, execution->lengths[buffer] * sizeof(int64_t));
    turn.out = lend(&print_room, side, execution->print_length);
    for (enum call call = READ; call < CALLS; call++)
        try_call(&turn, call);
    try_name(&turn);
    try_print(&turn);
}

static void await(sem_t *event)
{
    while (sem_wait(event) != 0)
        continue; /* libFuzzer's alarm may come between */
}

/* The thread that calls the library itself: no cell holds the same before both
 * turns, so one that is left as it was differs in one of them. */
static void *work(void *unused)
{
    (void)unused;
    for (;;) {
        await(&begin);
        uint64_t rubbish = (uint64_t)at_hand->rubbish;
        take_turn(&shipped, AT_END, rubbish, 0);
        take_turn(&shipped, AT_START, rubbish + 1, 1);
        sem_post(&end);
    }
    return NULL;
}

static void start_worker(void)
{
    pthread_t worker;
    pthread_attr_t attributes;
    stack = make_stack();
    sem_init(&begin, 0, 0);
    sem_init(&end, 0, 0);
    pthread_attr_init(&attributes);
    if (pthread_attr_setstack(&attributes, stack, STACK_BYTES) != 0 ||
        pthread_create(&worker, &attributes, work, NULL) != 0) {
        fputs("no thread to call the library in\n", stderr);
        exit(2);
    }
}

static void report(void)
{
    oracle_report(reference);
    printf("deepest stack: %zu of %zu KiB\n", stack_used(stack) >> 10, STACK_BYTES >> 10);
    report_edges();
    fflush(stdout);
}

int LLVMFuzzerInitialize(int *count, char ***words)
{
    (void)count;
    (void)words;
    text_room = make_room(READ_ONLY);
    order_room = make_room(READ_ONLY);
    pairs_room = make_room(READ_ONLY);
    for (enum buffer buffer = TABLE; buffer < BUFFERS; buffer++)
        rooms[buffer] = make_room(WRITABLE);
    print_room = make_room(WRITABLE);
    reference = oracle_new();
    start_worker();
    atexit(report);
    return 0;
}

int LLVMFuzzerTestOneInput(const uint8_t *data, size_t size)
{
    at_hand = oracle_take(reference, data, size);
    sem_post(&begin);
    await(&end);
    take_turn(&twin, AT_END, (uint64_t)at_hand->rubbish + 1, 1);
    keep_edges();
    return 0;
}

/* One change in sixteen is libFuzzer's own, to the text alone most often: they
 * come several at a time, and one byte that is not allowed hides all else. */
size_t LLVMFuzzerCustomMutator(uint8_t *data, size_t size, size_t room, unsigned seed)
{
    if (seed % 128 == 0 || room <= SETTINGS)
        return LLVMFuzzerMutate(data, size, room);
    if (seed % 16 == 0 && size > SETTINGS)
        return SETTINGS + LLVMFuzzerMutate(data + SETTINGS, size - SETTINGS, room - SETTINGS);
    return oracle_change(data, size, room, seed);
}

/* libFuzzer asks for this as often as for a change, and takes 0 for none. */
size_t LLVMFuzzerCustomCrossOver(const uint8_t *first, size_t first_size,
                                 const uint8_t *second, size_t second_size,
                                 uint8_t *data, size_t room, unsigned seed)
{
    if (seed % 8 != 0)
        return 0;
    return oracle_join(first, first_size, second, second_size, data, room);
}
