/* Tests c/lindypo_words.c: prints the version and all words, tries the tie rule of
 * line one, then looks for definitions by their full names, in the table that Read writes and in tables
 * that no Read writes. Every text, table and path is as long as is said, in
 * memory of its own, so that AddressSanitizer sees what is read beside it.
 * Status 1 where something is found that should not be, or is not found. */
#include <inttypes.h>
#include <stdio.h>
#include <stdlib.h>
#include <string.h>

#include "lindypo.h"

static int failures;

static void expect(const char *what, int64_t found, int64_t wanted)
{
    if (found != wanted) {
        failures++;
        printf("%s: found %" PRId64 ", wanted %" PRId64 "\n", what, found, wanted);
    }
}

static void *copy(const void *from, size_t bytes)
{
    void *to = malloc(bytes == 0 ? 1 : bytes);
    if (to == NULL)
        exit(2);
    memcpy(to, from, bytes);
    return to;
}

/* Looks for a path with copies of all that is lent. */
static int64_t find(const char *text, const int64_t *table, size_t cells, const char *path)
{
    uint8_t *own_text = copy(text, strlen(text));
    int64_t *own_table = copy(table, cells * sizeof *table);
    char *own_path = copy(path, strlen(path) + 1);
    int64_t found = lindypo_find(own_text, strlen(text), own_table, cells, own_path);
    free(own_path);
    free(own_table);
    free(own_text);
    return found;
}

static void print_words(void)
{
    printf("version %s\n", lindypo_version());
    for (uint64_t refusal = 0; refusal <= LINDYPO_REFUSAL_PAIR_NUMBER + 1; refusal++)
        printf("refusal %" PRIu64 ": %s\n", refusal, lindypo_refusal_words(refusal));
    printf("refusal %" PRIu64 ": %s\n", UINT64_MAX, lindypo_refusal_words(UINT64_MAX));
    for (int64_t state = -1; state <= LINDYPO_STATE_TOO_DEEP + 1; state++)
        printf("state %" PRId64 ": %s\n", state, lindypo_state_words(state));
    printf("state %" PRId64 ": %s\n", INT64_MIN, lindypo_state_words(INT64_MIN));
}

/* The tie rule of a text, in memory of its own. */
static int64_t rule_of(const char *text, size_t length)
{
    uint8_t *own = copy(text, length);
    int64_t ties = lindypo_tie_rule(own, length);
    free(own);
    return ties;
}

struct text {
    const char *text;
    int64_t ties;
};

static const struct text texts[] = {
    {"kind name a b c\n", LINDYPO_TIES_AWAY},
    {"kind name a b c\nG - 0 - -\n", LINDYPO_TIES_AWAY},
    {"kind2 name a b c\n", LINDYPO_TIES_EVEN},
    {"kind2 name a b c\nkind name a b c\n", LINDYPO_TIES_EVEN},
    /* lines that refusals 1 and 2 are about */
    {"", 0},
    {"\n", 0},
    {"kind name a b c", 0},
    {"kind2 name a b c", 0},
    {"kind2 name a b c\r\n", 0},
    {"kind2 name a b c \n", 0},
    {"kind2 name a b\n", 0},
    {"kind2  name a b c\n", 0},
    {"Kind2 name a b c\n", 0},
    {"kind3 name a b c\n", 0},
    {"kind02 name a b c\n", 0},
    {"kind 2 name a b c\n", 0},
    {" kind name a b c\n", 0},
};

/* Whole texts, and the start of each, which has no line one yet. */
static void tie_rules(void)
{
    for (size_t at = 0; at < sizeof texts / sizeof texts[0]; at++) {
        const char *text = texts[at].text;
        const char *end = strchr(text, '\n');
        expect(text, rule_of(text, strlen(text)), texts[at].ties);
        for (size_t length = 0; end != NULL && length <= (size_t)(end - text); length++)
            expect("the start of a line", rule_of(text, length), 0);
    }
    expect("no text", lindypo_tie_rule(NULL, 16), 0);
}

/* `far` stands in the outermost Group and in `left`, `right.deep` is a Group in
 * a Group, and the last value has the longest name. */
static const char sheet[] = "kind name a b c\n"
                            "G - 0 - -\n"
                            "G right 1 - -\n"
                            "G left 1 - -\n"
                            "V far 1 11 -\n"
                            "V far 3 12 -\n"
                            "G deep 2 - -\n"
                            "V sphere 6 13 -\n"
                            "F half 6 14 -\n"
                            "V decentration0001 6 17 -\n"
                            "V r 1 18 -\n"
                            "N - 1 - -\n"
                            "N - 2 - -\n"
                            "N - 3 - -\n"
                            "D - 15 16 -\n"
                            "P - - - -\n"
                            "N - 2 - -\n"
                            "R sphere - - -\n"
                            "N - 4 - -\n";

#define LABELS 18
#define CELLS (LINDYPO_TABLE_CELLS * LABELS)

static int64_t table[CELLS + 20];

struct path {
    const char *path;
    int64_t label;
};

static const struct path paths[] = {
    {"right", 2},
    {"left", 3},
    {"far", 4},
    {"left.far", 5},
    {"right.deep", 6},
    {"right.deep.sphere", 7},
    {"right.deep.half", 8},
    {"right.deep.decentration0001", 9},
    {"r", 10},
    /* names as people type them */
    {"RIGHT", 2},
    {"Left.FAR", 5},
    {"RIGHT.deep.Sphere", 7},
    {"right.Deep.DECENTRATION0001", 9},
    {"R", 10},
    /* nothing goes outward, and only Groups have members */
    {"right.far", 0},
    {"deep", 0},
    {"far.far", 0},
    {"right.deep.half.far", 0},
    /* the bytes are those of the name, all and no other, letters in any case */
    {"righ", 0},
    {"rights", 0},
    {"right.deep.decentration00011", 0},
    {"right.deep.decentration000", 0},
    /* paths that no definition can have */
    {"", 0},
    {".", 0},
    {".right", 0},
    {"right.", 0},
    {"right..deep", 0},
    {"-", 0},
    {" right", 0},
    {"right ", 0},
    {"right\n", 0},
    {"decentration00011111111111111111111111111111111111111111111111111111", 0},
};

static void found_in_a_sheet(void)
{
    for (size_t at = 0; at < sizeof paths / sizeof paths[0]; at++) {
        const char *path = paths[at].path;
        expect(path, find(sheet, table, CELLS, path), paths[at].label);
        expect(path, find(sheet, table, CELLS + 20, path), paths[at].label);
    }
}

/* Bytes 65 to 90 count as 97 to 122. */
static int lowercase_byte(int byte)
{
    return byte >= 65 && byte <= 90 ? byte + 32 : byte;
}

/* Names of one byte, each that a text can be lent with, and paths of each that a
 * path can have. */
static void every_byte(void)
{
    char text[256] = "", path[2] = "";
    int64_t cells[2 * LINDYPO_TABLE_CELLS];
    memcpy(cells, table, sizeof cells);
    for (int byte = 1; byte < 256; byte++)
        text[byte - 1] = (char)byte;
    cells[LINDYPO_TABLE_CELLS + LINDYPO_COLUMN_NAME_LENGTH] = 1;
    for (int named = 1; named < 256; named++)
        for (int asked = 1; asked < 256; asked++) {
            int is_same = asked != '.' && lowercase_byte(named) == lowercase_byte(asked);
            cells[LINDYPO_TABLE_CELLS + LINDYPO_COLUMN_NAME_START] = named - 1;
            path[0] = (char)asked;
            expect("a byte", find(text, cells, 2 * LINDYPO_TABLE_CELLS, path), is_same ? 2 : 0);
        }
}

/* A table that ends early has the labels that it is long enough for. */
static void found_in_part_of_a_table(void)
{
    for (size_t cells = 0; cells <= CELLS; cells++) {
        int64_t labels = (int64_t)(cells / LINDYPO_TABLE_CELLS);
        expect("left.far, cut", find(sheet, table, cells, "left.far"), labels >= 5 ? 5 : 0);
    }
}

static void nothing_lent(void)
{
    const uint8_t *text = (const uint8_t *)sheet;
    expect("no text", lindypo_find(NULL, sizeof sheet, table, CELLS, "far"), 0);
    expect("no table", lindypo_find(text, sizeof sheet, NULL, CELLS, "far"), 0);
    expect("no path", lindypo_find(text, sizeof sheet, table, CELLS, NULL), 0);
    expect("an empty table", find(sheet, table, 0, "far"), 0);
    expect("an empty text", find("", table, CELLS, "far"), 0);
}

/* A zero table, as after a refusal, has no definitions. */
static void refused_table(void)
{
    int64_t zeros[CELLS] = {0};
    expect("zeros", find(sheet, zeros, CELLS, "far"), 0);
}

/* Tables with one cell that no Read writes, each cell in turn: what is found is
 * what was found before, or another definition, and nothing beside the text and
 * the table is read. */
static void rubbish(void)
{
    static const int64_t wrong[] = {INT64_MIN, -1, 0, 1, 2, 3, 15, 16, 200, 300, INT64_MAX};
    for (size_t at = 0; at < CELLS; at++)
        for (size_t which = 0; which < sizeof wrong / sizeof wrong[0]; which++) {
            int64_t kept = table[at];
            table[at] = wrong[which];
            for (size_t path = 0; path < sizeof paths / sizeof paths[0]; path++) {
                int64_t found = find(sheet, table, CELLS, paths[path].path);
                expect("a label", found >= 0 && found <= LABELS, 1);
            }
            table[at] = kept;
        }
}

/* A table that says of every label that it is in itself, or in a later one. */
static void no_end(void)
{
    int64_t round[CELLS];
    memcpy(round, table, sizeof round);
    for (int64_t label = 1; label <= LABELS; label++) {
        int64_t *cells = round + LINDYPO_TABLE_CELLS * (label - 1);
        cells[LINDYPO_COLUMN_KIND] = LINDYPO_KIND_GROUP;
        cells[LINDYPO_COLUMN_NAME_START] = 28;
        cells[LINDYPO_COLUMN_NAME_LENGTH] = 5;
        cells[LINDYPO_COLUMN_OWNER] = label;
    }
    expect("Groups in themselves", find(sheet, round, CELLS, "right.right.right"), 0);
    round[LINDYPO_COLUMN_OWNER] = 2;
    round[LINDYPO_TABLE_CELLS + LINDYPO_COLUMN_OWNER] = 1;
    expect("a Group in its member", find(sheet, round, CELLS, "right"), 2);
    expect("a Group in its member", find(sheet, round, CELLS, "right.right.right"), 0);
}

/* Tables with a definition that no sheet has: without a name, with one that is too
 * long, a member of a value, or after the last label that a sheet may have. */
static void no_definitions(void)
{
    static int64_t cells[LINDYPO_TABLE_MOST + LINDYPO_TABLE_CELLS];
    int64_t *left = cells + 2 * LINDYPO_TABLE_CELLS;
    int64_t *last = cells + LINDYPO_TABLE_MOST;
    memcpy(cells, table, CELLS * sizeof *cells);
    left[LINDYPO_COLUMN_NAME_LENGTH] = 0;
    expect("no name", find(sheet, cells, CELLS, ""), 0);
    left[LINDYPO_COLUMN_NAME_START] = 0;
    left[LINDYPO_COLUMN_NAME_LENGTH] = LINDYPO_NAME_MOST + 1;
    expect("a long name", find(sheet, cells, CELLS, "kind name a b c\nG"), 0);
    left[LINDYPO_COLUMN_KIND] = LINDYPO_KIND_VALUE;
    left[LINDYPO_COLUMN_NAME_LENGTH] = 4;
    expect("a value", find(sheet, cells, CELLS, "kind"), 3);
    expect("a member of a value", find(sheet, cells, CELLS, "kind.far"), 0);
    last[LINDYPO_COLUMN_KIND] = LINDYPO_KIND_GROUP;
    last[LINDYPO_COLUMN_NAME_LENGTH] = 1;
    last[LINDYPO_COLUMN_OWNER] = 1;
    size_t all = sizeof cells / sizeof *cells;
    expect("after the last label", find(sheet, cells, all, "k"), 0);
}

/* A table whose name begins with the text's last byte, a line end, and has more
 * bytes than are left. */
static void past_the_text(void)
{
    char path[LINDYPO_NAME_MOST + 1] = "\n";
    int64_t cells[CELLS];
    memcpy(cells, table, sizeof cells);
    int64_t *right = cells + LINDYPO_TABLE_CELLS;
    right[LINDYPO_COLUMN_NAME_START] = (int64_t)strlen(sheet) - 1;
    for (int64_t length = 1; length <= LINDYPO_NAME_MOST; length++) {
        right[LINDYPO_COLUMN_NAME_LENGTH] = length;
        expect("past the text", find(sheet, cells, CELLS, path), length == 1 ? 2 : 0);
        path[length] = length < LINDYPO_NAME_MOST ? 'x' : '\0';
    }
    right[LINDYPO_COLUMN_NAME_START] = (int64_t)strlen(sheet);
    right[LINDYPO_COLUMN_NAME_LENGTH] = 1;
    expect("after the text", find(sheet, cells, CELLS, "\n"), 0);
}

int main(void)
{
    print_words();
    tie_rules();
    lindypo_reply reply = lindypo_read((const uint8_t *)sheet, strlen(sheet), table, CELLS + 20);
    expect("the sheet reads", (int64_t)reply.refusal, 0);
    expect("the labels", (int64_t)reply.count, LABELS);
    found_in_a_sheet();
    every_byte();
    found_in_part_of_a_table();
    nothing_lent();
    refused_table();
    rubbish();
    no_end();
    past_the_text();
    no_definitions();
    printf("%d wrong\n", failures);
    return failures != 0;
}
