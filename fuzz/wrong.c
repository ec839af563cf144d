/* Faults that the fuzzer has to find. Linked with `--wrap` for every export, so
 * that each of them comes here first; LINDYPO_WRONG says which fault is on. */
#include <alloca.h>
#include <ctype.h>
#include <stdio.h>
#include <stdlib.h>
#include <string.h>

#include "lindypo.h"

#define FAULTS 52

static const char *const words[FAULTS + 1] = {
    "",
    "Read writes the cell after the table",
    "Read writes the cell before the table",
    "Read leaves the last unused cell as it was",
    "Read leaves a cell as it was where it refuses a name",
    "Name takes the low half of a label",
    "Plan reads the byte after the text",
    "Plan reads the byte before the text",
    "Plan says whole of a mixed order",
    "Run takes one step more for a value that is spent",
    "Run leaves the table where a value reaches itself",
    "Follow writes to the order list",
    "Follow reads the cell after the order list",
    "Follow finds a missing value one place early",
    "Follow takes more than 2 MiB of stack where it answers",
    "The print answers the length of what it wrote",
    "The print leaves the last byte as it was where it is shorter",
    "The print writes the byte after its buffer where there is no room",
    "The print answers the place for the refusal",
    "Read does not find what a path in other letters leads to",
    "Read takes a name in other letters for another name",
    "Name gives the letters of the definition for those of a path",
    "Run leaves out the target of a path in other letters",
    "The print puts names in small letters",
    "Plan opens every Group where one is tangled",
    "Plan says whole where no member of the outermost Group is tangled",
    "Read takes names for one that differ after their eighth byte alone",
    "Read takes names for one that differ in their first eight bytes alone",
    "Read does not find a name of more than eight bytes in other letters",
    "Read leads a path to a name that differs after its eighth byte",
    "Retouch leaves out the value that owns the number",
    "Retouch redoes what mentions the owner itself alone",
    "Retouch does not lower the count of values that fail",
    "Retouch does not lower the sum of steps",
    "Retouch leaves out a pair whose number stays",
    "Retouch looks at the number of a pair before its label",
    "Retouch looks at all labels before any number",
    "Retouch counts an odd last cell as a pair of the changes",
    "Retouch has applied pairs where it refuses a later one",
    "Retouch leaves the last number as sent in the table",
    "Retouch takes one pair more than there may be",
    "Retouch reads the cell after the pairs",
    "Retouch writes the cell after the changes",
    "Run takes halves away from zero where they go to even",
    "Run takes halves to the odd neighbour where they go to even",
    "Run takes halves to even below zero alone",
    "Run takes halves to even where they go away from zero",
    "Follow goes by the other tie rule",
    "Retouch goes by the other tie rule",
    "The print goes by the other tie rule",
    "Read takes kind3 for kind2",
    "Read takes Kind2 for kind2",
    "Read gives byte starts under kind2 as under kind",
};

static int fault;

/* Status 3 where there is no such fault. */
__attribute__((constructor)) static void choose(void)
{
    const char *word = getenv("LINDYPO_WRONG");
    fault = word == NULL ? 0 : atoi(word);
    if (fault < 0 || fault > FAULTS)
        exit(3);
    fprintf(stderr, "fault: %s\n", words[fault]);
}

__typeof__(lindypo_read) __real_lindypo_read, __wrap_lindypo_read;
__typeof__(lindypo_name) __real_lindypo_name, __wrap_lindypo_name;
__typeof__(lindypo_plan) __real_lindypo_plan, __wrap_lindypo_plan;
__typeof__(lindypo_run) __real_lindypo_run, __wrap_lindypo_run;
__typeof__(lindypo_follow) __real_lindypo_follow, __wrap_lindypo_follow;
__typeof__(lindypo_retouch) __real_lindypo_retouch, __wrap_lindypo_retouch;
__typeof__(lindypo_print) __real_lindypo_print, __wrap_lindypo_print;

/* Whether the path at a label is in other letters than the definitions that it
 * leads to, which are the target and, name by name, the Groups around it; of
 * those, the ones whose names have so many bytes at least. */
static int has_other_letters(const uint8_t *text, const int64_t *table, uint64_t label,
                             int64_t least)
{
    const int64_t *path = table + 8 * (label - 1);
    int64_t end = path[1] + path[2];
    for (int64_t at = path[7]; at > 0 && end > path[1];) {
        const int64_t *definition = table + 8 * (at - 1);
        end -= definition[2];
        int is_other = memcmp(text + end, text + definition[1], (size_t)definition[2]) != 0;
        if (is_other && definition[2] >= least)
            return 1;
        end--; /* the dot */
        at = definition[6];
    }
    return 0;
}

/* The lines of a table: they have a kind, cells after them have not. */
static uint64_t line_count(const int64_t *table, size_t table_length)
{
    uint64_t lines = 0;
    while (8 * (lines + 1) <= table_length && table[8 * lines] != 0)
        lines++;
    return lines;
}

/* The first label whose path is in other letters, in a name of so many bytes at
 * least; 0 where none is. */
static uint64_t first_other_letters(const uint8_t *text, const int64_t *table,
                                    size_t table_length, int64_t least)
{
    uint64_t lines = line_count(table, table_length);
    for (uint64_t label = 1; label <= lines; label++)
        if (has_other_letters(text, table, label, least))
            return label;
    return 0;
}

/* What two names longer than a word of eight bytes agree in, but for case. */
enum part { FIRST_WORD, REST };

static int agree(const uint8_t *text, const int64_t *a, const int64_t *b, enum part part)
{
    if (a[2] != b[2] || a[2] <= 8)
        return 0;
    int64_t end = part == FIRST_WORD ? 8 : a[2];
    for (int64_t at = part == FIRST_WORD ? 0 : 8; at < end; at++)
        if (tolower(text[a[1] + at]) != tolower(text[b[1] + at]))
            return 0;
    return 1;
}

/* Another member, up to a label, of the Group of a definition whose name agrees
 * with its in that part; 0 where there is none. */
static uint64_t half_namesake(const uint8_t *text, const int64_t *table, uint64_t label,
                              uint64_t last, enum part part)
{
    const int64_t *line = table + 8 * (label - 1);
    for (uint64_t other = 2; other <= last; other++) {
        const int64_t *beside = table + 8 * (other - 1);
        int is_member = beside[0] <= LINDYPO_KIND_FUNCTION && beside[6] == line[6];
        if (other != label && is_member && agree(text, line, beside, part))
            return other;
    }
    return 0;
}

/* The first definition with such a member before it; 0 where none has. */
static uint64_t first_half_namesake(const uint8_t *text, const int64_t *table,
                                    size_t table_length, enum part part)
{
    uint64_t lines = line_count(table, table_length);
    for (uint64_t label = 2; label <= lines; label++) {
        int is_definition = table[8 * (label - 1)] <= LINDYPO_KIND_FUNCTION;
        if (is_definition && half_namesake(text, table, label, label - 1, part) != 0)
            return label;
    }
    return 0;
}

/* Leads the first path that it can to another of the same kind whose name begins
 * as the target's. */
static void lead_astray(const uint8_t *text, int64_t *table, size_t table_length)
{
    uint64_t lines = line_count(table, table_length);
    for (int64_t *line = table; line < table + 8 * lines; line += 8) {
        if (line[7] == 0)
            continue;
        uint64_t other = half_namesake(text, table, (uint64_t)line[7], lines, FIRST_WORD);
        if (other != 0 && table[8 * (other - 1)] == table[8 * (line[7] - 1)]) {
            line[7] = (int64_t)other;
            return;
        }
    }
}

/* A field, from 0, of the line at a label, of a text whose lines have five. */
static lindypo_part field_at(const uint8_t *text, uint64_t label, int field)
{
    uint64_t start = 0;
    for (; label > 0; label--)
        while (text[start++] != '\n')
            continue;
    for (; field > 0; field--)
        while (text[start++] != ' ')
            continue;
    uint64_t end = start;
    while (text[end] != ' ' && text[end] != '\n')
        end++;
    return (lindypo_part){.start = start, .length = end - start};
}

/* Whether two lines have the same bytes in a field. */
static int is_same_field(const uint8_t *text, uint64_t label, uint64_t other, int field)
{
    lindypo_part a = field_at(text, label, field), b = field_at(text, other, field);
    return a.length == b.length && memcmp(text + a.start, text + b.start, a.length) == 0;
}

/* Whether a smaller label in its Group has this label's name, byte for byte. */
static int clashes_in_same_letters(const uint8_t *text, uint64_t label)
{
    for (uint64_t other = 2; other < label; other++)
        if (is_same_field(text, label, other, 1) && is_same_field(text, label, other, 2))
            return 1;
    return 0;
}

/* What each definition reaches, by label. */
static uint8_t reaches[LINDYPO_LABELS_MOST + 1][LINDYPO_LABELS_MOST + 1];

static void fill_reaches(const int64_t *table, uint64_t lines)
{
    memset(reaches, 0, sizeof reaches);
    for (const int64_t *line = table; line < table + 8 * lines; line += 8)
        if (line[7] != 0)
            reaches[line[6]][line[7]] = 1;
    for (uint64_t middle = 1; middle <= lines; middle++)
        for (uint64_t from = 1; from <= lines; from++)
            for (uint64_t to = 1; reaches[from][middle] && to <= lines; to++)
                reaches[from][to] |= reaches[middle][to];
}

/* Whether a value is left, and none that it reaches. */
static int is_ready(const uint8_t *is_left, uint64_t lines, uint64_t value)
{
    for (uint64_t other = 1; other <= lines; other++)
        if (is_left[other] && reaches[value][other])
            return 0;
    return is_left[value];
}

/* The plan as it would be with every Group opened: again and again the smallest
 * value whose reached values are all listed. */
static void open_every_group(const int64_t *table, size_t table_length,
                             int64_t *plan, uint64_t count)
{
    uint8_t is_left[LINDYPO_LABELS_MOST + 1] = {0};
    uint64_t lines = line_count(table, table_length);
    for (uint64_t at = 0; at < count; at++)
        is_left[plan[at]] = 1;
    fill_reaches(table, lines);
    for (uint64_t at = 0; at < count; at++) {
        uint64_t next = 1;
        while (!is_ready(is_left, lines, next))
            next++;
        is_left[next] = 0;
        plan[at] = (int64_t)next;
    }
}

/* Whether a plan has the values of each member of the outermost Group side by
 * side, which it has where no two of them are tangled. */
static int is_whole_outside(const int64_t *table, const int64_t *plan, uint64_t count)
{
    uint8_t is_met[LINDYPO_LABELS_MOST + 1] = {0};
    int64_t before = 0;
    for (uint64_t at = 0; at < count; at++) {
        int64_t member = plan[at];
        while (table[8 * (member - 1) + 6] != 1)
            member = table[8 * (member - 1) + 6];
        if (member != before && is_met[member])
            return 0;
        is_met[member] = 1;
        before = member;
    }
    return 1;
}

static lindypo_reply refused(uint64_t row, uint64_t label)
{
    return (lindypo_reply){.refusal = row, .place = label};
}

/* How Read refuses a sheet that it should answer; at place 0 where it does not. */
static lindypo_reply wrong_refusal(const uint8_t *text, const int64_t *table,
                                   size_t table_length)
{
    switch (fault) {
    case 19:
        return refused(13, first_other_letters(text, table, table_length, 1));
    case 26:
        return refused(12, first_half_namesake(text, table, table_length, FIRST_WORD));
    case 27:
        return refused(12, first_half_namesake(text, table, table_length, REST));
    case 28:
        return refused(13, first_other_letters(text, table, table_length, 9));
    default:
        return refused(0, 0);
    }
}

/* What a list of pairs leaves, in buffers that are long enough. */
#define PAIRS_MOST 1024
typedef struct {
    int64_t table[LINDYPO_TABLE_MOST], plan[LINDYPO_PLAN_MOST];
    int64_t results[LINDYPO_RESULTS_MOST], changes[3 * PAIRS_MOST];
} left;

static void leave(left *left, const uint8_t *text, size_t text_length,
                  const int64_t *pairs, size_t pairs_length)
{
    __real_lindypo_retouch(text, text_length, pairs, pairs_length,
                           left->table, LINDYPO_TABLE_MOST, left->plan, LINDYPO_PLAN_MOST,
                           left->results, LINDYPO_RESULTS_MOST, left->changes, 3 * PAIRS_MOST);
}

/* No list of pairs. */
#define NO_PAIRS ((const int64_t[]){0})

/* The line of a label. */
static int64_t *line_of(int64_t *table, int64_t label)
{
    return table + 8 * (label - 1);
}

/* Whether a sheet's halves go to even; its first line is one of the two. */
static int is_even(const uint8_t *text)
{
    return text[4] == '2';
}

/* The text with so many bytes of its own line one left out, and these in their
 * place. */
static uint8_t changed[LINDYPO_TEXT_MOST + 8];

static size_t change_start(const char *start, const uint8_t *text, size_t text_length,
                           size_t left_out)
{
    size_t length = strlen(start);
    memcpy(changed, start, length);
    memcpy(changed + length, text + left_out, text_length - left_out);
    return length + text_length - left_out;
}

/* The same sheet under the other tie rule. */
static size_t turn_over(const uint8_t *text, size_t text_length)
{
    return is_even(text) ? change_start("kind", text, text_length, 5)
                         : change_start("kind2", text, text_length, 4);
}

/* The results of this many labels as they are under the other tie rule. */
static void go_by_other_rule(const uint8_t *text, size_t text_length, const int64_t *pairs,
                             size_t pairs_length, uint64_t lines, int64_t *results)
{
    static left other;
    leave(&other, changed, turn_over(text, text_length), pairs, pairs_length);
    memcpy(results, other.results, 3 * lines * sizeof *results);
}

/* What a half of a quotient goes to by a wrong rule: the odd neighbour, or the even
 * one below zero alone. */
static int64_t wrong_half(int64_t a, int64_t b)
{
    int64_t toward_zero = a / b, is_below = (a < 0) != (b < 0);
    int64_t out = toward_zero + (is_below ? -1 : 1);
    int64_t odd = toward_zero % 2 != 0 ? toward_zero : out;
    if (fault == 44)
        return odd;
    return is_below ? toward_zero + out - odd : out;
}

/* Rounds so the values that are a quotient of two numbers. */
static void round_wrongly(int64_t *table, uint64_t lines, int64_t *results)
{
    for (uint64_t label = 1; label <= lines; label++) {
        int64_t *value = line_of(table, (int64_t)label);
        if (value[0] != LINDYPO_KIND_VALUE)
            continue;
        int64_t *body = line_of(table, value[4]);
        if (body[0] != LINDYPO_KIND_QUOTIENT)
            continue;
        int64_t *a = line_of(table, body[3]), *b = line_of(table, body[4]);
        int is_of_numbers = a[0] == LINDYPO_KIND_NUMBER && b[0] == LINDYPO_KIND_NUMBER;
        if (is_of_numbers && b[3] != 0 && 2 * llabs(a[3] % b[3]) == llabs(b[3]))
            results[3 * (label - 1) + 1] = wrong_half(a[3], b[3]);
    }
}

/* The faults of a Run that is answered: the rule of a sheet of the one or the other
 * sort is not its own, or it is wrong. */
static void spoil_halves(const uint8_t *text, size_t text_length, int64_t *table,
                         size_t table_length, int64_t *results)
{
    uint64_t lines = line_count(table, table_length);
    if (fault == (is_even(text) ? 43 : 46))
        go_by_other_rule(text, text_length, NO_PAIRS, 0, lines, results);
    if (is_even(text) && (fault == 44 || fault == 45))
        round_wrongly(table, lines, results);
}

/* Byte starts as they are under the shorter line. */
static void move_starts(int64_t *table, size_t table_length)
{
    for (int64_t *line = table; line < table + 8 * line_count(table, table_length); line += 8)
        if (line[2] > 0)
            line[1]--;
}

/* Whether line one has this beginning. */
static int begins_with(const uint8_t *text, size_t text_length, const char *start)
{
    return text_length >= strlen(start) && memcmp(text, start, strlen(start)) == 0;
}

lindypo_reply __wrap_lindypo_read(const uint8_t *text, size_t text_length,
                                  int64_t *table, size_t table_length)
{
    int64_t last = table_length > 0 ? table[table_length - 1] : 0;
    lindypo_reply reply = __real_lindypo_read(text, text_length, table, table_length);
    int is_answer = reply.refusal == 0;
    if (fault == 1 && is_answer)
        table[table_length] = 0;
    if (fault == 2 && is_answer)
        table[-1] = 0;
    if (fault == 3 && is_answer && table_length > 8 * reply.count)
        table[table_length - 1] = last;
    if (fault == 4 && reply.refusal == 12)
        table[table_length - 1] = last;
    lindypo_reply wrong = {0};
    if (is_answer)
        wrong = wrong_refusal(text, table, table_length);
    if (wrong.place != 0) {
        memset(table, 0, table_length * sizeof *table);
        reply = wrong;
    }
    if (fault == 29 && is_answer)
        lead_astray(text, table, table_length);
    const char *taken = fault == 50 ? "kind3 name" : "Kind2 name";
    int is_fault = fault == 50 || fault == 51;
    if (is_fault && reply.refusal == 2 && begins_with(text, text_length, taken))
        reply = __real_lindypo_read(changed, change_start("kind2", text, text_length, 5), table,
                                    table_length);
    if (fault == 52 && is_answer && is_even(text))
        move_starts(table, table_length);
    if (fault == 20 && reply.refusal == 12 && !clashes_in_same_letters(text, reply.place))
        reply = (lindypo_reply){.count = reply.place};
    return reply;
}

lindypo_part __wrap_lindypo_name(const uint8_t *text, size_t text_length,
                                 int64_t *table, size_t table_length, int64_t label)
{
    if (fault == 5)
        label = (int32_t)label;
    lindypo_part part = __real_lindypo_name(text, text_length, table, table_length, label);
    if (fault == 21 && part.length > 0 && has_other_letters(text, table, (uint64_t)label, 1)) {
        const int64_t *target = table + 8 * (table[8 * (label - 1) + 7] - 1);
        part = (lindypo_part){.start = (uint64_t)target[1], .length = (uint64_t)target[2]};
    }
    return part;
}

lindypo_reply __wrap_lindypo_plan(const uint8_t *text, size_t text_length,
                                  int64_t *table, size_t table_length,
                                  int64_t *plan, size_t plan_length)
{
    if (fault == 6)
        (void)*(const volatile uint8_t *)(text + text_length);
    if (fault == 7)
        (void)*(const volatile uint8_t *)(text - 1);
    lindypo_reply reply = __real_lindypo_plan(text, text_length, table, table_length,
                                              plan, plan_length);
    int is_mixed = reply.order == 2;
    if (fault == 8 && is_mixed)
        reply.order = 1;
    if (fault == 24 && is_mixed)
        open_every_group(table, table_length, plan, reply.count);
    if (fault == 25 && is_mixed && is_whole_outside(table, plan, reply.count))
        reply.order = 1;
    return reply;
}

lindypo_reply __wrap_lindypo_run(const uint8_t *text, size_t text_length,
                                 int64_t *table, size_t table_length,
                                 int64_t *plan, size_t plan_length,
                                 int64_t *results, size_t results_length)
{
    lindypo_reply reply = __real_lindypo_run(text, text_length, table, table_length,
                                             plan, plan_length, results, results_length);
    for (uint64_t at = 0; fault == 9 && at < reply.count; at++) {
        int64_t *result = results + 3 * (plan[at] - 1);
        result[2] += result[0] == 4;
    }
    if (fault == 10 && reply.refusal == 16)
        __real_lindypo_read(text, text_length, table, table_length);
    if (reply.refusal == 0)
        spoil_halves(text, text_length, table, table_length, results);
    uint64_t label = 0;
    if (fault == 22 && reply.refusal == 0)
        label = first_other_letters(text, table, table_length, 1);
    if (label != 0)
        table[8 * (label - 1) + 7] = 0;
    return reply;
}

lindypo_reply __wrap_lindypo_follow(const uint8_t *text, size_t text_length,
                                    const int64_t *order, size_t order_length,
                                    int64_t *table, size_t table_length,
                                    int64_t *results, size_t results_length)
{
    if (fault == 11 && order_length > 0)
        *(volatile int64_t *)order = order[0];
    if (fault == 12)
        (void)*(const volatile int64_t *)(order + order_length);
    lindypo_reply reply = __real_lindypo_follow(text, text_length, order, order_length, table,
                                                table_length, results, results_length);
    if (fault == 13 && reply.refusal == 17 && reply.place == order_length + 1)
        reply.place--;
    if (fault == 14 && reply.refusal == 0)
        *(volatile uint8_t *)alloca(2 << 20) = 0;
    if (fault == 47 && reply.refusal == 0)
        go_by_other_rule(text, text_length, NO_PAIRS, 0, line_count(table, table_length),
                         results);
    return reply;
}

/* Whether a value mentions a definition itself. */
static int mentions(const int64_t *table, uint64_t lines, int64_t value, int64_t target)
{
    for (const int64_t *line = table; line < table + 8 * lines; line += 8)
        if (line[6] == value && line[7] == target)
            return 1;
    return 0;
}

/* A value's result as it was before the last pair. */
static void leave_out(int64_t *results, int64_t *change, const left *before, int64_t value)
{
    memcpy(results + 3 * (value - 1), before->results + 3 * (value - 1), 3 * sizeof *results);
    change[0]--;
}

/* The last pair redoes no value that mentions the owner by others alone. */
static void leave_out_distant(int64_t *table, uint64_t lines, const int64_t *plan,
                              uint64_t count, int64_t owner, int64_t *results, int64_t *change,
                              const left *before)
{
    fill_reaches(table, lines);
    for (uint64_t at = 0; at < count; at++) {
        int64_t value = plan[at];
        if (value != owner && reaches[value][owner] && !mentions(table, lines, value, owner))
            leave_out(results, change, before, value);
    }
}

/* A figure of each pair that goes up and never down. */
static void keep_highest(int64_t *changes, size_t pairs, int figure, int64_t before)
{
    for (size_t at = 0; at < pairs; at++) {
        int64_t *cell = changes + 3 * at + figure;
        if (*cell < before)
            *cell = before;
        before = *cell;
    }
}

/* The values that fail by these results, or all steps: what figure 1 and 2 are of. */
static int64_t sum_of(const int64_t *results, int figure)
{
    int64_t sum = 0;
    for (const int64_t *result = results; result < results + LINDYPO_RESULTS_MOST; result += 3)
        sum += figure == 1 ? result[0] > 1 : result[2];
    return sum;
}

static int is_in_range(int64_t number)
{
    return number >= -LINDYPO_NUMBER_MOST && number <= LINDYPO_NUMBER_MOST;
}

/* The first pair from a place on whose label is no N line's; 0 where none is. */
static uint64_t first_wrong_label(const uint8_t *text, size_t text_length,
                                  const int64_t *pairs, size_t pairs_length, uint64_t place)
{
    static int64_t table[LINDYPO_TABLE_MOST];
    int64_t lines =
        (int64_t)__real_lindypo_read(text, text_length, table, LINDYPO_TABLE_MOST).count;
    for (; 2 * place <= pairs_length; place++) {
        int64_t label = pairs[2 * (place - 1)];
        int is_label = label >= 1 && label <= lines;
        if (!is_label || line_of(table, label)[0] != LINDYPO_KIND_NUMBER)
            return place;
    }
    return 0;
}

/* Pairs whose number is there redo nothing. */
static void skip_unchanged(const int64_t *pairs, size_t count, int64_t *numbers,
                           int64_t *changes)
{
    for (size_t at = 0; at < count; at++) {
        int64_t *number = line_of(numbers, pairs[2 * at]) + 3;
        if (*number == pairs[2 * at + 1])
            changes[3 * at] = 0;
        *number = pairs[2 * at + 1];
    }
}

/* The faults of a list that is answered, of one pair at least. */
static void spoil_answer(const uint8_t *text, size_t text_length, const int64_t *pairs,
                         size_t count, int64_t *table, size_t table_length,
                         const int64_t *plan, uint64_t planned, int64_t *results,
                         int64_t *changes)
{
    static left before;
    int64_t label = pairs[2 * (count - 1)];
    int64_t owner = line_of(table, label)[6];
    int64_t *change = changes + 3 * (count - 1);
    int is_last = fault == 30 || fault == 31 || fault == 39;
    leave(&before, text, text_length, pairs, is_last ? 2 * (count - 1) : 0);
    if (fault == 30 && line_of(table, owner)[0] == LINDYPO_KIND_VALUE)
        leave_out(results, change, &before, owner);
    if (fault == 31)
        leave_out_distant(table, line_count(table, table_length), plan, planned, owner,
                          results, change, &before);
    if (fault == 32 || fault == 33)
        keep_highest(changes, count, fault - 31, sum_of(before.results, fault - 31));
    if (fault == 34)
        skip_unchanged(pairs, count, before.table, changes);
    if (fault == 39)
        line_of(table, label)[3] = line_of(before.table, label)[3];
}

lindypo_reply __wrap_lindypo_retouch(const uint8_t *text, size_t text_length,
                                     const int64_t *pairs, size_t pairs_length,
                                     int64_t *table, size_t table_length,
                                     int64_t *plan, size_t plan_length,
                                     int64_t *results, size_t results_length,
                                     int64_t *changes, size_t changes_length)
{
    if (fault == 41)
        (void)*(const volatile int64_t *)(pairs + pairs_length);
    lindypo_reply reply = __real_lindypo_retouch(
        text, text_length, pairs, pairs_length, table, table_length, plan, plan_length,
        results, results_length, changes, changes_length);
    uint64_t row = reply.refusal, place = reply.place;
    if (row == 0 && pairs_length > 0)
        spoil_answer(text, text_length, pairs, pairs_length / 2, table, table_length, plan,
                     reply.count, results, changes);
    if (fault == 35 && row == 20 && !is_in_range(pairs[2 * (place - 1) + 1]))
        reply = refused(21, place);
    uint64_t later = 0;
    if (fault == 36 && row == 21)
        later = first_wrong_label(text, text_length, pairs, pairs_length, place);
    if (later != 0)
        reply = refused(20, later);
    if (fault == 37 && row == 19 && changes_length < 3 * ((pairs_length + 1) / 2))
        reply = refused(4, 4);
    if (fault == 38 && row >= 20 && place > 1)
        __real_lindypo_run(text, text_length, table, table_length, plan, plan_length, results,
                           results_length);
    if (fault == 40 && row == 19 && pairs_length == 2 * (PAIRS_MOST + 1))
        reply = __real_lindypo_retouch(text, text_length, pairs, 2 * PAIRS_MOST, table,
                                       table_length, plan, plan_length, results,
                                       results_length, changes, changes_length);
    if (fault == 42 && row == 0)
        changes[changes_length] = 0;
    if (fault == 48 && row == 0)
        go_by_other_rule(text, text_length, pairs, pairs_length,
                         line_count(table, table_length), results);
    return reply;
}

lindypo_printed __wrap_lindypo_print(const uint8_t *text, size_t text_length,
                                     uint8_t *out, size_t out_length)
{
    uint8_t last = out_length > 0 ? out[out_length - 1] : 0;
    lindypo_printed printed = __real_lindypo_print(text, text_length, out, out_length);
    if (fault == 49 && printed.refusal == 0)
        printed = __real_lindypo_print(changed, turn_over(text, text_length), out, out_length);
    int is_short = printed.length > out_length;
    if (fault == 15 && is_short)
        printed.length = out_length;
    if (fault == 16 && printed.length < out_length)
        out[out_length - 1] = last;
    if (fault == 17 && is_short)
        out[out_length] = 0;
    if (fault == 18)
        printed.refusal = printed.place;
    for (size_t at = 0; fault == 23 && at < out_length; at++)
        if (out[at] >= 'A' && out[at] <= 'Z')
            out[at] += 'a' - 'A';
    return printed;
}
