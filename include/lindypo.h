/* Lindypo: order sheets for a lens laboratory, read, planned and evaluated by
 * proved code.
 *
 * Every text, every order list, every list of pairs, every label, every length
 * and whatever the buffers hold beforehand is fine: a call answers or refuses,
 * and never ends the process. It allocates nothing, keeps nothing between calls,
 * and may be made from several threads at once. A thread stack of 2 MiB is enough for all
 * of them; LINDYPO_READ_STACK and its like say how much each takes.
 *
 * What a caller sees to: a pointer is not null, even where the length is 0; as
 * many bytes or cells as its length says can be read there, and written unless
 * it is const; a buffer that is written overlaps no other; and no other thread
 * writes to any of them meanwhile.
 *
 * Lengths are in bytes for the text and in cells of 64 bits for all others.
 *
 * Names are compared without regard to the case of ASCII letters, in Groups and
 * in paths: bytes 65 to 90 count as 97 to 122, every other byte as itself. What
 * the calls give of a name is as it was sent. Kinds and column names are
 * compared byte by byte.
 *
 * Line one names the tie rule, and nothing else does: under `kind name a b c` a
 * quotient that is a half goes away from zero, under `kind2 name a b c` to its even
 * neighbour. -3250 / 100 is -33 under the one and -32 under the other. Run, Follow,
 * Retouch and the print go by the line of the text that they are lent.
 *
 * A call writes every cell of every buffer lent for writing, so nothing of what
 * they held before is left: cells that an answer does not use are 0, and a
 * refusal leaves every cell 0.
 */
#ifndef LINDYPO_H
#define LINDYPO_H

#include <stddef.h>
#include <stdint.h>

#ifdef __cplusplus
extern "C" {
#endif

/* The version of this header. lindypo_version() gives that of the library. */
#define LINDYPO_VERSION_MAJOR 0
#define LINDYPO_VERSION_MINOR 6
#define LINDYPO_VERSION_PATCH 0
#define LINDYPO_VERSION "0.6.0"

/* Limits of a sheet. */
#define LINDYPO_TEXT_MOST 65536        /* bytes of the text */
#define LINDYPO_LABELS_MOST 1024       /* lines after line one */
#define LINDYPO_NAME_MOST 16           /* letters or digits of a name */
#define LINDYPO_PATH_MOST 8            /* names of a path */
#define LINDYPO_NUMBER_MOST 1000000000 /* numbers, and as many below 0 */
#define LINDYPO_LEVELS_MOST 32         /* levels of an expression */

/* Limits of evaluating: steps for each value, and the call depth at which a
 * further call fails. */
#define LINDYPO_STEPS_MOST 20000
#define LINDYPO_DEPTH_MOST 64

/* Limit of a list of pairs. */
#define LINDYPO_PAIRS_MOST 1024

/* Cells for each label in the table and in the results; the plan has one. */
#define LINDYPO_TABLE_CELLS 8
#define LINDYPO_RESULT_CELLS 3

/* Cells for each pair in the list of pairs and in the changes. */
#define LINDYPO_PAIR_CELLS 2
#define LINDYPO_CHANGE_CELLS 3

/* Cells that are enough for every sheet, and changes for every list of pairs that
 * is not refused. */
#define LINDYPO_TABLE_MOST (LINDYPO_TABLE_CELLS * LINDYPO_LABELS_MOST)
#define LINDYPO_PLAN_MOST LINDYPO_LABELS_MOST
#define LINDYPO_RESULTS_MOST (LINDYPO_RESULT_CELLS * LINDYPO_LABELS_MOST)
#define LINDYPO_CHANGES_MOST (LINDYPO_CHANGE_CELLS * LINDYPO_PAIRS_MOST)

/* Bytes of stack that are enough for a call, the frame that makes it included:
 * measured on the sheets that take most, rounded up. */
#define LINDYPO_READ_STACK 32768
#define LINDYPO_NAME_STACK 32768
#define LINDYPO_PLAN_STACK 327680
#define LINDYPO_RUN_STACK 327680
#define LINDYPO_FOLLOW_STACK 425984
#define LINDYPO_RETOUCH_STACK 458752
#define LINDYPO_PRINT_STACK 425984

/* The kind of a line, by its letter's code. G, V and F lines are definitions,
 * all others are expressions. */
enum lindypo_kind {
    LINDYPO_KIND_GROUP = 1,      /* G */
    LINDYPO_KIND_VALUE = 2,      /* V */
    LINDYPO_KIND_FUNCTION = 3,   /* F */
    LINDYPO_KIND_NUMBER = 4,     /* N */
    LINDYPO_KIND_ARGUMENT = 5,   /* P */
    LINDYPO_KIND_READ = 6,       /* R */
    LINDYPO_KIND_CALL = 7,       /* C */
    LINDYPO_KIND_SUM = 8,        /* A */
    LINDYPO_KIND_DIFFERENCE = 9, /* S */
    LINDYPO_KIND_PRODUCT = 10,   /* M */
    LINDYPO_KIND_QUOTIENT = 11,  /* D */
    LINDYPO_KIND_CHOICE = 12     /* I */
};

/* The cells of a label in the table. */
enum lindypo_column {
    LINDYPO_COLUMN_KIND = 0,        /* one of lindypo_kind */
    LINDYPO_COLUMN_NAME_START = 1,  /* the name field's first byte in the text, from 0; 0 for `-` */
    LINDYPO_COLUMN_NAME_LENGTH = 2, /* the name field's length in bytes; 0 for `-` */
    LINDYPO_COLUMN_A = 3,           /* a: a label, or an N's number; 0 for `-` */
    LINDYPO_COLUMN_B = 4,           /* b: a label; 0 for `-` */
    LINDYPO_COLUMN_C = 5,           /* c: a label; 0 for `-` */
    LINDYPO_COLUMN_OWNER = 6,       /* a definition's Group, an expression's definition; 0 for label 1 */
    LINDYPO_COLUMN_TARGET = 7       /* what the path of an R or C leads to; 0 for other kinds */
};

/* The cells of a label in the results. */
enum lindypo_result {
    LINDYPO_RESULT_STATE = 0,
    LINDYPO_RESULT_NUMBER = 1, /* 0 where the state is not LINDYPO_STATE_NUMBER */
    LINDYPO_RESULT_STEPS = 2   /* steps taken */
};

/* The cells of a pair in the changes: what it brought about. */
enum lindypo_change {
    LINDYPO_CHANGE_REDONE = 0,  /* values evaluated again */
    LINDYPO_CHANGE_FAILING = 1, /* values of the sheet that then have another state than
                                   LINDYPO_STATE_NUMBER */
    LINDYPO_CHANGE_STEPS = 2    /* the sum of the steps of all values then */
};

/* What evaluating a value ends in; a line that is no value has state 0. */
enum lindypo_state {
    LINDYPO_STATE_NUMBER = 1,
    LINDYPO_STATE_OUT_OF_RANGE = 2,
    LINDYPO_STATE_ZERO_DIVISOR = 3,
    LINDYPO_STATE_OUT_OF_STEPS = 4, /* of LINDYPO_STEPS_MOST */
    LINDYPO_STATE_TOO_DEEP = 5      /* a call at LINDYPO_DEPTH_MOST */
};

/* The order of a plan. */
enum lindypo_order {
    LINDYPO_ORDER_WHOLE = 1, /* the values of every Group stand together */
    LINDYPO_ORDER_MIXED = 2  /* no order that has each value after those it reaches can have that */
};

/* The tie rule: where a quotient goes that is a half. */
enum lindypo_ties {
    LINDYPO_TIES_AWAY = 1, /* away from zero; line one is `kind name a b c` */
    LINDYPO_TIES_EVEN = 2  /* to the even neighbour; line one is `kind2 name a b c` */
};

/* Refusals. A call gives the first that applies; Read looks at 1 to 15, Plan
 * and Run at 1 to 16, Follow at 1 to 18, Retouch at 1 to 16 and 19 to 21. The
 * place is 0 for the text and for the list of pairs as a whole, one of
 * lindypo_place for the buffers, a position in the order list for the order, a
 * pair of the list for that pair, and else a label.
 *
 * Positions in the order list count from 1; where a V is missing and nothing
 * else is wrong, the place is the list's length + 1. Pairs count from 1. */
enum lindypo_refusal {
    /* the text */
    LINDYPO_REFUSAL_TEXT = 1,       /* its length, its last byte or a byte is not allowed */
    LINDYPO_REFUSAL_FIRST_LINE = 2, /* line one is neither `kind name a b c` nor
                                       `kind2 name a b c` */
    LINDYPO_REFUSAL_LABELS = 3,     /* there are no labels, or more than 1,024 */
    /* the buffers */
    LINDYPO_REFUSAL_BUFFERS = 4, /* one is too short */
    /* a line */
    LINDYPO_REFUSAL_FIELDS = 5, /* not five fields, or an empty one */
    LINDYPO_REFUSAL_KIND = 6,   /* unknown kind */
    LINDYPO_REFUSAL_FORM = 7,   /* a field of wrong form, or label 1 not `G - 0 - -` */
    /* the tree */
    LINDYPO_REFUSAL_STRUCTURE = 8, /* a Group field is no Group with a smaller label, or a body or
                                      operand no expression with a larger one */
    LINDYPO_REFUSAL_USES = 9,      /* an expression that no field uses, or two or more */
    LINDYPO_REFUSAL_ARGUMENT = 10, /* a P owned by a V */
    LINDYPO_REFUSAL_LEVEL = 11,    /* nested deeper than 32 levels */
    /* names and paths */
    LINDYPO_REFUSAL_DUPLICATE = 12, /* a smaller label in its Group has that name, in any case */
    LINDYPO_REFUSAL_HEAD = 13,      /* the first name of a path is not found */
    LINDYPO_REFUSAL_LATER = 14,     /* a later name is not found, or asked of a V or F */
    LINDYPO_REFUSAL_TARGET = 15,    /* an R that leads to no V, or a C that leads to no F */
    /* the values */
    LINDYPO_REFUSAL_CYCLE = 16, /* a value that reaches itself */
    /* the order list */
    LINDYPO_REFUSAL_LISTED = 17, /* no V label, or one listed before; or a V is missing */
    LINDYPO_REFUSAL_EARLY = 18,  /* reaches a value that is not listed earlier */
    /* the list of pairs */
    LINDYPO_REFUSAL_PAIRS = 19,      /* an odd list, or one of more than 1,024 pairs */
    LINDYPO_REFUSAL_PAIR_LABEL = 20, /* a label that is no N line */
    LINDYPO_REFUSAL_PAIR_NUMBER = 21 /* a number out of range */
};

/* The place of LINDYPO_REFUSAL_BUFFERS: the lowest, of the buffers that the
 * call is lent. */
enum lindypo_place {
    LINDYPO_PLACE_TABLE = 1,
    LINDYPO_PLACE_PLAN = 2,
    LINDYPO_PLACE_RESULTS = 3,
    LINDYPO_PLACE_CHANGES = 4
};

typedef struct {
    /* 0 where the call answered, else the number of the refusal, one of
     * lindypo_refusal. */
    uint64_t refusal;
    /* Where the refusal was found; 0 in an answer. */
    uint64_t place;
    /* The number n of labels, 1 to 1,024, from Read; the length of the plan,
     * which is the number of values, from Plan, Run and Retouch; the length of
     * the order list, which is then the same, from Follow. 0 in a refusal. */
    uint64_t count;
    /* Of the plan, from Plan, Run and Retouch: one of lindypo_order. 0 in a
     * refusal and from Read and Follow. */
    uint64_t order;
} lindypo_reply;

/* The part of the text that begins at byte `start` and has `length` bytes;
 * 0, 0 when empty. */
typedef struct {
    uint64_t start, length;
} lindypo_part;

/* Read: judges the sheet and writes the table.
 *
 * The table needs 8 cells for each of the n labels. In an answer the cells of
 * label k are those from 8(k - 1) on, by lindypo_column. All cells after these
 * 8n are then 0. */
lindypo_reply lindypo_read(const uint8_t *text, size_t text_length,
                           int64_t *table, size_t table_length);

/* Name: writes the table as Read does, and gives a label's name field as a part
 * of the text, so in the case in which it was sent. The part is empty where Read would refuse, where the label is
 * not from 1 to n, and where the field is `-`. */
lindypo_part lindypo_name(const uint8_t *text, size_t text_length,
                          int64_t *table, size_t table_length, int64_t label);

/* Plan: writes the table as Read does, and the plan: the labels of all values,
 * each after every value that it reaches, as many cells as the reply counts.
 *
 * The plan needs n cells, so that it is long enough however many of the labels
 * are values. */
lindypo_reply lindypo_plan(const uint8_t *text, size_t text_length,
                           int64_t *table, size_t table_length,
                           int64_t *plan, size_t plan_length);

/* Run: writes table and plan as Plan does, and the results of evaluating the
 * values down the plan.
 *
 * The results need 3 cells for each of the n labels. In an answer the cells of
 * label k are those from 3(k - 1) on, by lindypo_result, all three 0 for a line
 * that is no value. All cells after these 3n are then 0. */
lindypo_reply lindypo_run(const uint8_t *text, size_t text_length,
                          int64_t *table, size_t table_length,
                          int64_t *plan, size_t plan_length,
                          int64_t *results, size_t results_length);

/* Follow: writes table and results as Run does, down an order of the caller's
 * in place of a plan. Refusals 17 and 18 let exactly those lists pass that have
 * every V label once, each after every value that it reaches; the results are
 * then those of Run, whichever such order it is. */
lindypo_reply lindypo_follow(const uint8_t *text, size_t text_length,
                             const int64_t *order, size_t order_length,
                             int64_t *table, size_t table_length,
                             int64_t *results, size_t results_length);

/* Retouch: writes table, plan and results as Run does, then puts new numbers
 * into N lines, one after the other, and evaluates again what depends on them.
 *
 * The list is label, number, label, number, and so on. Each pair in turn puts its
 * number into its N line, which is then cell a of that label in the table. Then
 * the value that owns the line and all values that reach its owner are
 * evaluated again, even where the number stays as it was, and no others. So the
 * results are those of Run on the sheet with all numbers put in, whatever the
 * length of its text. An empty list changes nothing: Retouch is then Run.
 *
 * The changes need 3 cells for each whole pair of the list; an odd last cell is
 * not counted here, and refused later. So does a list of more pairs than are
 * allowed: in LINDYPO_CHANGES_MOST cells it is refused for the changes. In an answer the cells of pair k are
 * those from 3(k - 1) on, by lindypo_change, as they stood after that pair and
 * before the next. All cells after these are then 0.
 *
 * Refusals 19 to 21 come after those of Run, and all pairs are judged before any
 * is applied: first the list as a whole, then pair by pair, the label before the
 * number. The same line may be in several pairs, and the last of them stays. */
lindypo_reply lindypo_retouch(const uint8_t *text, size_t text_length,
                              const int64_t *pairs, size_t pairs_length,
                              int64_t *table, size_t table_length,
                              int64_t *plan, size_t plan_length,
                              int64_t *results, size_t results_length,
                              int64_t *changes, size_t changes_length);

/* The program's print of a sheet: one line of column names, then one line per
 * value in the order of the plan; of a refusal, `refusal place` and one line of
 * the two numbers. It is no call of document 01, so a refusal leaves a print
 * and no zeros.
 *
 * The sheet is run with buffers of the library's own, which are long enough for
 * every sheet: refusal and place are those of Run with such buffers, 0 and 0 in
 * an answer, and never 4. `out` holds the print as far as it goes, then zeros.
 * `length` is that of the whole print, 1 to LINDYPO_PRINT_MOST: an `out` that
 * is shorter has the first bytes alone, and one of LINDYPO_PRINT_MOST bytes is
 * never too short. */
#define LINDYPO_PRINT_MOST 49188

typedef struct {
    uint64_t refusal, place, length;
} lindypo_printed;

lindypo_printed lindypo_print(const uint8_t *text, size_t text_length,
                              uint8_t *out, size_t out_length);

/* The calls from here on are c/lindypo_words.c: tested, not proved. They keep
 * nothing, allocate nothing, and give texts that are never null, never change
 * and are not to be freed. target/staticlib/liblindypo.a has the proved calls
 * alone; the libraries that ./install makes have these as well. */

/* The version of the library: "0.6.0" and the like. */
const char *lindypo_version(void);

/* A refusal in general, in words: "a value that reaches itself". For 0 "no
 * refusal", for a number that none has "no refusal has this number". */
const char *lindypo_refusal_words(uint64_t refusal);

/* A state in words: "divided by zero". For 0, which is that of a line that is no
 * value, "no value"; for a number that none has "no state has this number". */
const char *lindypo_state_words(int64_t state);

/* The tie rule that line one of a text names, one of lindypo_ties, whatever follows
 * it; 0 where it is neither line, or has no line end, or the pointer is null. */
int64_t lindypo_tie_rule(const uint8_t *text, size_t text_length);

/* The label of the definition with this full name, its own name after those of
 * the Groups around it, outermost first, joined by dots: `right.prism`. The case
 * of letters makes no difference: `RIGHT.Prism` is the same. 0 where there is
 * none.
 *
 * Text and table are those of a Read that answered, and of no other text. The
 * path ends with a byte 0. Nothing outside the text and the table is read
 * whatever they hold, nor after the path's end; 0 where a pointer is null. */
int64_t lindypo_find(const uint8_t *text, size_t text_length,
                     const int64_t *table, size_t table_length,
                     const char *path);

#ifdef __cplusplus
}
#endif

#endif
