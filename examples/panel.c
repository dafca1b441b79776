/* An operator's path: enter a table, see how many looks planning may take, plan it, look at the plan; then meet a refusal,
   mend it, and meet a late table and the reason for it; then send a message of several cells, and meet one that is too long;
   then test the fibre with a message once round, and meet one that is due a slot too early; then keep the table as text, read
   it back, and meet a wrong line; then edit a table row by row with the load of each link in view, and plan it. */
#include "garboardle.h"

#include <stdio.h>
#include <string.h>

static uint16_t plan[GARBOARDLE_MOST_ENTRIES];
static uint16_t plan_afresh[GARBOARDLE_MOST_ENTRIES];
static uint16_t arrivals[GARBOARDLE_MOST_ARRIVALS];
static uint16_t arrivals_afresh[GARBOARDLE_MOST_ARRIVALS];
static uint16_t members[GARBOARDLE_MOST_ROWS];
static struct garboardle_table desk;
static struct garboardle_row kept[GARBOARDLE_MOST_ROWS];
static uint8_t text[GARBOARDLE_LONGEST_TEXT];

/* The length of an array. */
#define LENGTH(a) (sizeof(a) / sizeof((a)[0]))

static const char *const words[] = {
    "accepted",
    "nodes outside 2 to 32",
    "more than 512 rows",
    "source not below nodes",
    "destination not below nodes",
    "source equals destination",
    "due slot outside 1 to 1024",
    "plan area too short",
    "arrivals area too short",
    "late",
    "length outside 1 to 64",
    "more than 1024 cells",
    "no such row",
    [20] = "wrong line",
    [21] = "list too short",
    [22] = "area too short",
};

static void show_row(size_t number, unsigned src, unsigned dst, unsigned len, unsigned due)
{
    printf("  row %zu: %u to %u, cells %u, due %u\n", number, src, dst, len, due);
}

static unsigned largest_due(const struct garboardle_row *rows, size_t count)
{
    unsigned due = 0;
    for (size_t i = 0; i < count; i++)
        if (due < rows[i].due)
            due = rows[i].due;
    return due;
}

static void show_plan(uint16_t nodes, unsigned slots)
{
    for (unsigned t = 0; t < slots; t++) {
        printf("  slot %u:", t);
        for (unsigned p = 0; p < nodes; p++)
            printf(" %u", (unsigned)plan[t * nodes + p]);
        printf("\n");
    }
}

/* Why these rows are late, and how many cells of which of them that is about. */
static void show_reason(uint16_t nodes, const struct garboardle_row *rows, size_t count)
{
    struct garboardle_reason r = garboardle_reason(nodes, rows, count, members, LENGTH(members));
    printf("  %u %s must cross link %u before slot %u", (unsigned)r.cells, r.cells == 1 ? "cell" : "cells", (unsigned)r.link,
           (unsigned)r.before);
    for (size_t i = 0; i < count; i++)
        if (members[i] > 0)
            printf(", %u of row %zu", (unsigned)members[i], i + 1);
    printf("\n");
}

/* What planning these rows came to. */
static void show_answer(struct garboardle_answer a, uint16_t nodes, const struct garboardle_row *rows, size_t count)
{
    printf("  answer %u (%s), row %u, slot %u, looks %lu\n", (unsigned)a.number, words[a.number], (unsigned)a.row,
           (unsigned)a.slot, (unsigned long)a.looks);
    if (a.number == 9)
        show_reason(nodes, rows, count);
    if (a.number != 0)
        return;

    show_plan(nodes, largest_due(rows, count));
    for (size_t i = 0; i < count; i++)
        printf("  row %zu is there at %u\n", i + 1, (unsigned)arrivals[i]);
    printf("  last %u, sends %lu, sum %lu, mean %.4f, share %.4f\n", (unsigned)a.last, (unsigned long)a.sends,
           (unsigned long)a.sum, a.mean, a.share);
}

static void operate(const char *what, uint16_t nodes, const struct garboardle_row *rows, size_t count)
{
    printf("%s: %u nodes\n", what, (unsigned)nodes);
    for (size_t i = 0; i < count; i++)
        show_row(i + 1, rows[i].src, rows[i].dst, rows[i].len, rows[i].due);
    printf("  at most %lu looks\n", (unsigned long)garboardle_most_looks(nodes, rows, count));
    show_answer(garboardle_plan(nodes, rows, count, plan, LENGTH(plan), arrivals, LENGTH(arrivals)), nodes, rows, count);
}

/* Reads a text of that length, and plans the table that it holds. */
static void reread(const char *what, size_t length)
{
    struct garboardle_read_answer a = garboardle_read(text, length, kept, LENGTH(kept));
    printf("%s: answer %u (%s), line %u\n", what, (unsigned)a.number, words[a.number], (unsigned)a.line);
    if (a.number == 0)
        operate("of the text", a.nodes, kept, a.rows);
}

/* Writes a table as text and reads it back: whole, without the last line feed, with a letter for a zero, and into too
   short a list. */
static void keep(uint16_t nodes, const struct garboardle_row *rows, size_t count)
{
    struct garboardle_write_answer w = garboardle_write(nodes, rows, count, text, LENGTH(text));
    printf("written: answer %u (%s), %zu bytes\n", (unsigned)w.number, words[w.number], w.length);
    fwrite(text, 1, w.length, stdout);

    reread("read back", w.length);
    reread("cut short", w.length - 1);
    text[19] = 'O';
    reread("mistyped", w.length);

    struct garboardle_read_answer r = garboardle_read(text, w.length, kept, 1);
    printf("1 record lent, 2 needed: answer %u (%s)\n", (unsigned)r.number, words[r.number]);
    w = garboardle_write(nodes, rows, count, text, 62);
    printf("62 bytes lent, 63 needed: answer %u (%s)\n", (unsigned)w.number, words[w.number]);
}

/* The edited table as the panel draws it: its rows, the load of each link, and the busiest one. */
static void show_desk(void)
{
    for (unsigned number = 1; number <= garboardle_row_count(&desk); number++) {
        struct garboardle_row_answer r = garboardle_row_of(&desk, (uint16_t)number);
        show_row(number, r.src, r.dst, r.len, r.due);
    }
    printf("  loads:");
    for (unsigned p = 0; p < desk.nodes; p++)
        printf(" %u", (unsigned)garboardle_link_load(&desk, (uint16_t)p));
    struct garboardle_link b = garboardle_busiest(&desk);
    printf(", the busiest is link %u with %u\n", (unsigned)b.link, (unsigned)b.load);
}

/* What an edit came to: the table as it is now, or why it is as it was. */
static void report(const char *what, struct garboardle_edit_answer a)
{
    printf("%s: answer %u (%s), row %u\n", what, (unsigned)a.number, words[a.number], (unsigned)a.row);
    if (a.number == 0)
        show_desk();
}

/* Edits a table, with four edits that are refused and change nothing. */
static void edit(void)
{
    report("open", garboardle_open(&desk, 4));
    report("add", garboardle_add(&desk, (struct garboardle_row){0, 1, 1, 2}));
    report("add", garboardle_add(&desk, (struct garboardle_row){0, 3, 1, 3}));
    report("add", garboardle_add(&desk, (struct garboardle_row){2, 1, 3, 6}));
    report("add from node 4", garboardle_add(&desk, (struct garboardle_row){4, 1, 1, 2}));
    report("add 65 cells", garboardle_add(&desk, (struct garboardle_row){3, 1, 65, 99}));
    report("change row 4", garboardle_change(&desk, 4, (struct garboardle_row){1, 3, 1, 4}));
    report("remove row 0", garboardle_remove(&desk, 0));
    report("change row 1", garboardle_change(&desk, 1, (struct garboardle_row){1, 3, 1, 4}));
    report("remove row 2", garboardle_remove(&desk, 2));
    report("add once round", garboardle_add(&desk, (struct garboardle_row){3, 3, 1, 9}));
}

/* Whether two answers are equal, field by field: the bytes between looks and mean are anyone's. */
static int same_answers(struct garboardle_answer a, struct garboardle_answer b)
{
    return a.number == b.number && a.row == b.row && a.slot == b.slot && a.last == b.last && a.sends == b.sends &&
           a.sum == b.sum && a.looks == b.looks && a.mean == b.mean && a.share == b.share;
}

/* Plans the edited table, then the same rows entered afresh, and compares what came of both. */
static void plan_edited(void)
{
    struct garboardle_row rows[] = {{1, 3, 1, 4}, {2, 1, 3, 6}, {3, 3, 1, 9}};
    struct garboardle_answer a = garboardle_plan_table(&desk, plan, LENGTH(plan), arrivals, LENGTH(arrivals));
    struct garboardle_answer b =
        garboardle_plan(4, rows, LENGTH(rows), plan_afresh, LENGTH(plan_afresh), arrivals_afresh, LENGTH(arrivals_afresh));
    printf("edited: %u nodes, %u rows\n", (unsigned)desk.nodes, (unsigned)desk.rows);
    printf("  at most %lu looks\n", (unsigned long)garboardle_most_looks_table(&desk));
    show_answer(a, desk.nodes, desk.row, desk.rows);

    size_t entries = 4 * largest_due(rows, LENGTH(rows));
    int same = same_answers(a, b) && memcmp(plan, plan_afresh, entries * sizeof plan[0]) == 0 &&
               memcmp(arrivals, arrivals_afresh, LENGTH(rows) * sizeof arrivals[0]) == 0;
    printf("entered afresh: %s\n", same ? "the same plan" : "another plan");
}

int main(void)
{
    struct garboardle_row table[] = {{0, 1, 1, 2}, {0, 3, 1, 3}};
    operate("entered", 4, table, LENGTH(table));

    table[0].dst = 4;
    operate("mistyped", 4, table, LENGTH(table));

    table[0].dst = 2;
    table[0].due = 4;
    operate("mended", 4, table, LENGTH(table));

    table[0].due = 2;
    operate("hurried", 4, table, LENGTH(table));

    struct garboardle_answer a = garboardle_plan(4, table, LENGTH(table), plan, 11, arrivals, LENGTH(arrivals));
    printf("11 entries lent, 12 needed: answer %u (%s)\n", (unsigned)a.number, words[a.number]);

    table[0].len = 2;
    table[0].due = 5;
    operate("lengthened", 4, table, LENGTH(table));

    table[0].len = 65;
    operate("too long", 4, table, LENGTH(table));

    struct garboardle_row test[] = {{2, 2, 3, 6}};
    operate("once round", 4, test, LENGTH(test));

    test[0].due = 5;
    operate("hurried round", 4, test, LENGTH(test));

    table[0].len = 2;
    keep(4, table, LENGTH(table));

    edit();
    plan_edited();
    return 0;
}
