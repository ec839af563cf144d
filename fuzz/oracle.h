/* The fuzzer's half in Rust, rust/fuzz: what an input stands for, what the
 * calls have to give for it by the reference, and changes to it. */
#ifndef ORACLE_H
#define ORACLE_H

#include "lindypo.h"

/* How many bytes of an input are settings; the text comes after them. */
#define SETTINGS 75

/* The calls that reply, in the sequence of `wanted`. */
enum call { READ, PLAN, RUN, FOLLOW, RETOUCH, CALLS };

/* The buffers lent for writing, in the sequence of `cells` and `lengths`. */
enum buffer { TABLE, PLANNED, RESULTS, CHANGES, BUFFERS };

typedef struct oracle oracle;

typedef struct {
    lindypo_reply reply;
    const int64_t *cells[BUFFERS];
} wanted;

/* What the calls are lent, and what they have to give. */
typedef struct {
    const uint8_t *text;
    size_t text_length;
    const int64_t *order;
    size_t order_length;
    const int64_t *pairs;
    size_t pairs_length;
    size_t lengths[BUFFERS];
    /* What the buffers hold beforehand. */
    int64_t rubbish;
    int64_t label;
    wanted wanted[CALLS];
    lindypo_part name;
    /* The bytes lent for the print, what it answers and leaves in them. */
    size_t print_length;
    lindypo_printed printed;
    const uint8_t *print;
} execution;

oracle *oracle_new(void);

/* Holds until the next input is taken. */
const execution *oracle_take(oracle *oracle, const uint8_t *data, size_t size);

/* A change that leaves the input near a sheet; gives its new length. */
size_t oracle_change(uint8_t *data, size_t size, size_t room, uint32_t seed);

/* Two sheets made one; 0 where there is no room. */
size_t oracle_join(const uint8_t *first, size_t first_size,
                   const uint8_t *second, size_t second_size,
                   uint8_t *data, size_t room);

/* Prints what all inputs taken came to. */
void oracle_report(const oracle *oracle);

#endif
