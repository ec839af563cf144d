#include "edges.h"

#include <stdint.h>
#include <stdio.h>
#include <stdlib.h>

/* A counter for each edge, and where its code stands: the compilers put both in
 * sections of these names, in the same sequence. */
extern const uint8_t __start___sancov_cntrs[], __stop___sancov_cntrs[];
typedef struct {
    uintptr_t code, is_entry;
} place;
extern const place __start___sancov_pcs[];

/* The twin's code has a section of its own; all else is the reference's. */
extern const uint8_t __start_twin_code[], __stop_twin_code[];

static uint8_t *met;

void keep_edges(void)
{
    size_t count = (size_t)(__stop___sancov_cntrs - __start___sancov_cntrs);
    if (met == NULL)
        met = calloc(count, 1);
    for (size_t at = 0; met != NULL && at < count; at++)
        met[at] |= __start___sancov_cntrs[at];
}

void report_edges(void)
{
    size_t count = (size_t)(__stop___sancov_cntrs - __start___sancov_cntrs);
    size_t all[2] = {0, 0}, taken[2] = {0, 0};
    for (size_t at = 0; met != NULL && at < count; at++) {
        uintptr_t code = __start___sancov_pcs[at].code;
        int is_twin = code >= (uintptr_t)__start_twin_code && code < (uintptr_t)__stop_twin_code;
        all[is_twin]++;
        taken[is_twin] += met[at] != 0;
    }
    printf("edges taken: %zu of %zu in the library, %zu of %zu in the reference\n",
           taken[1], all[1], taken[0], all[0]);
}
