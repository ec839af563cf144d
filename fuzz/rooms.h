/* Memory to lend, so placed that the library's own reads and writes out of
 * bounds are found although its code is not instrumented. */
#ifndef ROOMS_H
#define ROOMS_H

#include <stddef.h>
#include <stdint.h>

/* A part is lent at one end of its room, and what is beyond that end, its guard,
 * cannot be read or written. */
enum side { AT_START, AT_END };

typedef struct {
    /* As lent, from guard to guard. */
    uint8_t *start, *end;
    /* The same bytes elsewhere, to write where the lent ones are read only. */
    uint8_t *own;
} room;

enum access { READ_ONLY, WRITABLE };

room make_room(enum access access);

/* So many bytes at that end of the room, what they hold as it is. */
void *lend(const room *room, enum side side, size_t bytes);

/* The same with these contents. */
const void *lend_copy(const room *room, enum side side, const void *contents, size_t bytes);

/* Canaries beside such a part, on the side where there is no guard. */
void set_canaries(const room *room, enum side side, size_t bytes);
int canaries_stand(const room *room, enum side side, size_t bytes);

/* Memory for a thread's stack, between guards too, and how many bytes of it were
 * ever used. */
#define STACK_BYTES ((size_t)2 << 20)
uint8_t *make_stack(void);
size_t stack_used(const uint8_t *stack);

#endif
