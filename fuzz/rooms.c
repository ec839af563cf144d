#define _GNU_SOURCE
#include "rooms.h"

#include <stdio.h>
#include <stdlib.h>
#include <string.h>
#include <sys/mman.h>
#include <unistd.h>

/* More than the longest text or table, and canaries. */
#define ROOM_BYTES ((size_t)128 << 10)

/* How far out of bounds an access still traps. */
#define GUARD ((size_t)16 << 20)

#define CANARIES ((size_t)512)
#define CANARY 0xA5

static void *checked(void *memory)
{
    if (memory == MAP_FAILED) {
        perror("memory to lend");
        exit(2);
    }
    return memory;
}

/* So many bytes between guards; as yet they trap themselves. */
static uint8_t *make_guarded(size_t bytes)
{
    int flags = MAP_PRIVATE | MAP_ANONYMOUS | MAP_NORESERVE;
    return (uint8_t *)checked(mmap(NULL, bytes + 2 * GUARD, PROT_NONE, flags, -1, 0)) + GUARD;
}

room make_room(enum access access)
{
    int file = memfd_create("room", 0);
    if (file < 0 || ftruncate(file, (off_t)ROOM_BYTES) != 0) {
        perror("memory to lend");
        exit(2);
    }
    int lent = access == WRITABLE ? PROT_READ | PROT_WRITE : PROT_READ;
    uint8_t *start = make_guarded(ROOM_BYTES);
    checked(mmap(start, ROOM_BYTES, lent, MAP_SHARED | MAP_FIXED, file, 0));
    uint8_t *own = checked(mmap(NULL, ROOM_BYTES, PROT_READ | PROT_WRITE, MAP_SHARED, file, 0));
    close(file);
    return (room){start, start + ROOM_BYTES, own};
}

void *lend(const room *room, enum side side, size_t bytes)
{
    return side == AT_START ? room->start : room->end - bytes;
}

const void *lend_copy(const room *room, enum side side, const void *contents, size_t bytes)
{
    uint8_t *lent = lend(room, side, bytes);
    if (bytes > 0)
        memcpy(room->own + (lent - room->start), contents, bytes);
    return lent;
}

static uint8_t *canaries(const room *room, enum side side, size_t bytes)
{
    return side == AT_START ? room->start + bytes : room->end - bytes - CANARIES;
}

void set_canaries(const room *room, enum side side, size_t bytes)
{
    memset(canaries(room, side, bytes), CANARY, CANARIES);
}

int canaries_stand(const room *room, enum side side, size_t bytes)
{
    const uint8_t *first = canaries(room, side, bytes);
    return first[0] == CANARY && memcmp(first, first + 1, CANARIES - 1) == 0;
}

uint8_t *make_stack(void)
{
    uint8_t *stack = make_guarded(STACK_BYTES);
    checked(mprotect(stack, STACK_BYTES, PROT_READ | PROT_WRITE) == 0 ? stack : MAP_FAILED);
    memset(stack, CANARY, STACK_BYTES);
    return stack;
}

size_t stack_used(const uint8_t *stack)
{
    size_t unused = 0;
    while (unused < STACK_BYTES && stack[unused] == CANARY)
        unused++;
    return STACK_BYTES - unused;
}
