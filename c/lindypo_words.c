/* Words for refusals and states, the version, the tie rule that a text names, and
 * the way from a full name to a label. This file is tested and not proved: it stands beside the proved calls,
 * which do not rest on it. */
#include "lindypo.h"

const char *lindypo_version(void)
{
    return LINDYPO_VERSION;
}

/* The words of rust/lindypo's `Refusal`; a test holds both together. */
static const char *const refusals[] = {
    "no refusal",
    "the text's length, its last byte, or a byte that is not allowed",
    "line one is neither `kind name a b c` nor `kind2 name a b c`",
    "no labels, or more than 1,024",
    "a buffer that is too short",
    "not five fields, or an empty one",
    "an unknown kind",
    "a field of wrong form, or label 1 is not `G - 0 - -`",
    "a Group, body or operand that is none, or on the wrong side",
    "an expression that no field uses, or two or more",
    "the argument of a function in a value",
    "nested deeper than 32 levels",
    "a name that its Group has already, whatever the case of its letters",
    "the head of a path is not found",
    "a later name of a path is not found, or is asked of a value or function",
    "a read that leads to no value, or a call that leads to no function",
    "a value that reaches itself",
    "an order with a label that is no value's, with one twice, or without a value",
    "an order with a value before one that it reaches",
    "an odd list of pairs, or more than 1,024 pairs",
    "a pair with a label that is no N line",
    "a pair with a number out of range",
};

const char *lindypo_refusal_words(uint64_t refusal)
{
    if (refusal < sizeof refusals / sizeof refusals[0])
        return refusals[refusal];
    return "no refusal has this number";
}

/* The words of rust/lindypo's `State`. */
static const char *const states[] = {
    "no value",
    "a number",
    "out of the number range",
    "divided by zero",
    "no step left of 20,000",
    "a call at depth 64",
};

const char *lindypo_state_words(int64_t state)
{
    if (state >= 0 && (uint64_t)state < sizeof states / sizeof states[0])
        return states[state];
    return "no state has this number";
}

/* Each tie rule's line one, with its line end. */
struct first_line {
    enum lindypo_ties ties;
    const char *line;
};

static const struct first_line first_lines[] = {
    {LINDYPO_TIES_AWAY, "kind name a b c\n"},
    {LINDYPO_TIES_EVEN, "kind2 name a b c\n"},
};

static int begins_with(const uint8_t *text, size_t text_length, const char *line)
{
    size_t at = 0;
    while (line[at] != '\0' && at < text_length && text[at] == (uint8_t)line[at])
        at++;
    return line[at] == '\0';
}

int64_t lindypo_tie_rule(const uint8_t *text, size_t text_length)
{
    if (text == NULL)
        return 0;
    for (size_t at = 0; at < sizeof first_lines / sizeof first_lines[0]; at++)
        if (begins_with(text, text_length, first_lines[at].line))
            return first_lines[at].ties;
    return 0;
}

/* A sheet as its text and table; label 1 to `labels` can be looked at. */
struct sheet {
    const uint8_t *text;
    size_t text_length;
    const int64_t *table;
    int64_t labels;
};

static int64_t cell(const struct sheet *sheet, int64_t label, enum lindypo_column column)
{
    return sheet->table[LINDYPO_TABLE_CELLS * (label - 1) + column];
}

static int is_definition(const struct sheet *sheet, int64_t label)
{
    switch (cell(sheet, label, LINDYPO_COLUMN_KIND)) {
    case LINDYPO_KIND_GROUP:
    case LINDYPO_KIND_VALUE:
    case LINDYPO_KIND_FUNCTION:
        return 1;
    default:
        return 0;
    }
}

/* A byte as names are compared: letters of ASCII in any case, whatever the locale
 * says. */
static uint8_t lowercase_byte(uint8_t byte)
{
    return byte >= 'A' && byte <= 'Z' ? (uint8_t)(byte - 'A' + 'a') : byte;
}

/* Whether the label's name field is this name, the case of letters aside. Cells
 * that no Read writes, such as a place outside the text, are no name. */
static int has_name(const struct sheet *sheet, int64_t label, const char *name, size_t length)
{
    int64_t start = cell(sheet, label, LINDYPO_COLUMN_NAME_START);
    int64_t size = cell(sheet, label, LINDYPO_COLUMN_NAME_LENGTH);
    if (size < 0 || (uint64_t)size != length)
        return 0;
    if (start < 0 || (uint64_t)start > sheet->text_length)
        return 0;
    if (length > sheet->text_length - (size_t)start)
        return 0;
    for (size_t at = 0; at < length; at++)
        if (lowercase_byte(sheet->text[(size_t)start + at]) != lowercase_byte((uint8_t)name[at]))
            return 0;
    return 1;
}

/* The smallest member of a Group with this name; 0 where there is none. A member
 * stands below its Group, so that a path always comes to an end. */
static int64_t member(const struct sheet *sheet, int64_t group, const char *name, size_t length)
{
    if (cell(sheet, group, LINDYPO_COLUMN_KIND) != LINDYPO_KIND_GROUP)
        return 0;
    for (int64_t label = group + 1; label <= sheet->labels; label++)
        if (is_definition(sheet, label) && cell(sheet, label, LINDYPO_COLUMN_OWNER) == group &&
            has_name(sheet, label, name, length))
            return label;
    return 0;
}

/* The length of the first name of a path; 0 where it is empty or too long. */
static size_t first_name(const char *path)
{
    size_t length = 0;
    while (length <= LINDYPO_NAME_MOST && path[length] != '\0' && path[length] != '.')
        length++;
    return length <= LINDYPO_NAME_MOST ? length : 0;
}

/* How many labels a table of this length can be of. */
static int64_t labels_of(size_t table_length)
{
    size_t labels = table_length / LINDYPO_TABLE_CELLS;
    return labels < LINDYPO_LABELS_MOST ? (int64_t)labels : LINDYPO_LABELS_MOST;
}

int64_t lindypo_find(const uint8_t *text, size_t text_length, const int64_t *table,
                     size_t table_length, const char *path)
{
    struct sheet sheet = {text, text_length, table, labels_of(table_length)};
    if (text == NULL || table == NULL || path == NULL || sheet.labels == 0)
        return 0;
    int64_t found = 1;
    for (;;) {
        size_t length = first_name(path);
        found = length == 0 ? 0 : member(&sheet, found, path, length);
        if (found == 0 || path[length] == '\0')
            return found;
        path += length + 1;
    }
}
