/* Which edges of the library's and the reference's code were ever taken. */
#ifndef EDGES_H
#define EDGES_H

/* After each execution, before libFuzzer clears the counters. */
void keep_edges(void);
void report_edges(void);

#endif
