/* Why a table is late, in C, with the fault that WRONG names, from 300 on, and with none else. The tests must turn away
   every fault. */
#include "garboardle.h"

#include <limits.h>
#include <string.h>

#define NEVER INT_MAX

/* A table that nothing is wrong with. */
struct table {
    int nodes;
    const struct garboardle_row *rows;
    size_t count;
    int latest; /* the largest due slot */
};

/* How many cells must cross a link before a slot; no cells where there is no such link. */
struct jam {
    unsigned cells;
    int link;
    int before;
};

static struct garboardle_reason refused(unsigned number, unsigned row)
{
    struct garboardle_reason r = {(uint16_t)number, (uint16_t)row, 0, 0, 0, 0};
    if (WRONG == 300) /* 300: a cell with every refusal */
        r.cells = 1;
    return r;
}

/* The links from node p on to a destination, all of them where that is p itself. */
static int links_on(int p, int dst, int n)
{
    int links = (dst + n - p) % n;
    return links == 0 && WRONG != 301 && WRONG != 302 ? n : links; /* 301, 302: none to p itself */
}

/* The links that a row's cells have to go. */
static int links_to_go(struct garboardle_row r, int n)
{
    if (r.src == r.dst)
        return WRONG == 302 || WRONG == 303 ? 0 : n; /* 302, 303: a full turn is none */
    return links_on(r.src, r.dst, n);
}

/* The due slot of cell j of a row. */
static int cell_due(struct garboardle_row r, int j)
{
    int due = r.due - (r.len - j);
#if WRONG == 304 /* every cell with its row */
    due = r.due;
#elif WRONG == 305 /* later cells after the row's due slot */
    due = r.due + j - 1;
#elif WRONG == 306 /* in 16 bits */
    due = (uint16_t)due;
#endif
    return due;
}

/* The first slot before which cell j of a row must cross link p. */
static int first_before(struct garboardle_row r, int j, int p, int n)
{
    int on = links_on(p, r.dst, n);
    if (on > links_to_go(r, n) && WRONG != 307) /* 307: cells that do not cross the link */
        return NEVER;
    if (on == links_to_go(r, n) && WRONG == 308) /* 308: the first link of the way is none of it */
        return NEVER;
    if (on == 1 && WRONG == 309) /* 309: the last link of the way is none of it */
        return NEVER;
    int first = cell_due(r, j) - on + 1;
#if WRONG == 310 /* the slot itself counts as before it */
    first--;
#elif WRONG == 311 /* a slot more to spare */
    first++;
#elif WRONG == 312 /* as if the cell stood at its destination once it has crossed */
    first = cell_due(r, j);
#elif WRONG == 313 /* as if it had its whole way to go */
    first = cell_due(r, j) - links_to_go(r, n) + 1;
#elif WRONG == 314 /* a cell that must be gone before slot 0 is none */
    if (first <= 0)
        return NEVER;
#endif
    return first < 0 ? 0 : first;
}

/* How many cells of a row must cross link p before slot b. */
static unsigned among(struct garboardle_row r, int p, int b, int n)
{
    unsigned count = 0;
    for (int j = 1; j <= r.len; j++)
        count += first_before(r, j, p, n) <= b;
    return count;
}

/* Writes how many cells must cross link p before slot b and need not before slot b - 1, for every b. */
static void tally(const struct table *t, int p, unsigned *added)
{
    for (size_t i = 0; i + (WRONG == 315) < t->count; i++) { /* 315: without the last row */
        struct garboardle_row r = t->rows[i];
        int first_cell = WRONG == 316 || WRONG == 317 ? r.len : 1; /* 316, 317: rows in place of cells */
        for (int j = first_cell; j <= r.len; j++) {
            int b = first_before(r, j, p, t->nodes);
            if (b <= t->latest)
                added[b]++;
        }
    }
}

/* Whether so many cells are too many for the slots before slot b. */
static int overfull(unsigned cells, unsigned b)
{
#if WRONG == 318 /* just full is too many */
    return cells > 0 && cells >= b;
#elif WRONG == 319 /* one too many is none */
    return cells > b + 1;
#endif
    return cells > b;
}

/* The jam of link p: the first slot before which it is overfull. */
static struct jam jam_of(const struct table *t, int p)
{
    unsigned added[GARBOARDLE_LATEST_DUE + 1] = {0};
    unsigned cells = 0;
    int latest = t->latest;
    struct jam found = {0, 0, 0};
    tally(t, p, added);
#if WRONG == 320 /* the last slot is not looked at */
    latest--;
#elif WRONG == 321 /* slots up to the first row's due slot */
    latest = t->count > 0 ? t->rows[0].due : 0;
#elif WRONG == 322 /* slot 0 is not looked at */
    cells = added[0];
#endif
    for (int b = WRONG == 322; b <= latest; b++) {
        cells += added[b];
        if (WRONG == 323) /* 323: cells counted in 8 bits */
            cells = (uint8_t)cells;
        if (overfull(cells, (unsigned)b)) {
            struct jam jam = {cells, p, b};
            if (WRONG != 324) /* 324: the last slot before which it is overfull */
                return jam;
            found = jam;
        }
    }
    return found;
}

/* Whether a jam is told rather than one of a lower link. */
static int better(struct jam a, struct jam b)
{
#if WRONG == 325 /* the higher link on a tie */
    return a.cells <= b.cells;
#elif WRONG == 326 /* most cells */
    return a.cells > b.cells;
#elif WRONG == 327 /* the first link */
    return 0;
#elif WRONG == 328 /* the earliest slot */
    return a.before < b.before;
#elif WRONG == 329 /* the largest excess */
    return (int)a.cells - a.before > (int)b.cells - b.before;
#elif WRONG == 330 /* the earlier slot on a tie */
    return a.cells < b.cells || (a.cells == b.cells && a.before < b.before);
#endif
    return a.cells < b.cells;
}

/* The jam with the fewest cells, that of the lowest link on a tie. */
static struct jam search(const struct table *t)
{
    struct jam best = {0, 0, 0};
    int links = t->nodes - (WRONG == 331); /* 331: the last link is not looked at */
    for (int p = WRONG == 332; p < links; p++) { /* 332: nor is link 0 */
        struct jam found = jam_of(t, p);
        if (found.cells > 0 && (best.cells == 0 || better(found, best)))
            best = found;
    }
    return best;
}

/* How many of a row's cells are told to be in the jam. */
static unsigned mark(const struct table *t, struct garboardle_row r, struct jam jam)
{
    unsigned count = among(r, jam.link, jam.before, t->nodes);
#if WRONG == 333 /* rows of another link */
    count = among(r, (jam.link + 1) % t->nodes, jam.before, t->nodes);
#elif WRONG == 334 /* all that ever cross the link */
    count = among(r, jam.link, NEVER - 1, t->nodes);
#elif WRONG == 335 || WRONG == 317 /* 1 for each row that has some */
    count = count > 0;
#elif WRONG == 336 /* all cells of each row that has some */
    count = count > 0 ? r.len : 0;
#elif WRONG == 337 /* those of the next slot too */
    count = among(r, jam.link, jam.before + 1, t->nodes);
#endif
    return jam.cells > 0 ? count : 0;
}

/* Writes the marks of all rows. */
static void mark_rows(const struct table *t, struct jam jam, uint16_t *members, size_t members_len)
{
    if (jam.cells == 0 && WRONG == 338) /* 338: left as they were where there is no jam */
        return;
    for (size_t i = 0; i < t->count; i++)
        members[WRONG == 339 ? t->count - 1 - i : i] = (uint16_t)mark(t, t->rows[i], jam); /* 339: in the other order */
#if WRONG == 340 /* an entry past the rows too */
    if (t->count < members_len)
        members[t->count] = 0;
#elif WRONG == 361 /* the same, even where the list ends there */
    members[t->count] = 0;
#elif WRONG == 341 /* the whole list */
    for (size_t i = t->count; i < members_len; i++)
        members[i] = 0;
#endif
    (void)members_len;
}

/* The reason as it is told. */
static struct garboardle_reason told(const struct table *t, struct jam jam)
{
    struct garboardle_reason r = {0, 0, 0, (uint16_t)jam.cells, (uint16_t)jam.link, (uint16_t)jam.before};
    if (jam.cells == 0)
        return r;
#if WRONG == 342 /* 9 */
    r.number = 9;
#elif WRONG == 343 /* the first marked row is named */
    while (mark(t, t->rows[r.row++], jam) == 0)
        continue;
#elif WRONG == 344 /* the slot twice */
    r.slot = r.before;
#elif WRONG == 345 /* links numbered from 1 */
    r.link++;
#elif WRONG == 346 /* how many cells are too many */
    r.cells = (uint16_t)(r.cells - r.before);
#elif WRONG == 347 /* the last slot in which they can cross */
    r.before--;
#elif WRONG == 348 /* how many slots are missing in place of the link */
    r.link = (uint16_t)(r.cells - r.before);
#endif
    (void)t;
    return r;
}

/* What planning refuses a table with, whatever areas are lent; 0 where it is fit to be planned. */
static struct garboardle_answer unfit(uint16_t nodes, const struct garboardle_row *rows, size_t rows_len)
{
    uint16_t plan, arrivals;
    struct garboardle_answer a = garboardle_plan(nodes, rows, rows_len, &plan, 0, &arrivals, 0);
    if (a.number == 7 || a.number == 8)
        a.number = 0;
#if WRONG == 349 /* at most 31 nodes */
    if (nodes == 32)
        a.number = 1, a.row = 0;
#elif WRONG == 350 /* at most 511 rows */
    if (a.number != 1 && rows_len == 512)
        a.number = 2, a.row = 0;
#elif WRONG == 351 /* never 11 */
    if (a.number == 11)
        a.number = 0;
#elif WRONG == 352 /* rows numbered from 0 */
    if (a.row > 0)
        a.row--;
#elif WRONG == 353 /* 5 for a full turn */
    for (size_t i = 0; i < rows_len && a.number == 0; i++)
        if (rows[i].src == rows[i].dst)
            a.number = 5, a.row = (uint16_t)(i + 1);
#elif WRONG == 362 /* a look at the row past the last */
    if (rows_len > 0 && *(const volatile uint16_t *)&rows[rows_len].src == 12345)
        a.number = 9;
#endif
    return a;
}

struct garboardle_reason garboardle_reason(uint16_t nodes, const struct garboardle_row *rows, size_t rows_len,
                                           uint16_t *members, size_t members_len)
{
    struct table t = {nodes, rows, rows_len, 0};
    if (members_len < rows_len && WRONG == 354) /* 354: 8 first */
        return refused(8, 0);
#if WRONG == 355 /* cleared before anything is judged */
    memset(members, 0, members_len * sizeof *members);
#endif
    struct garboardle_answer a = unfit(nodes, rows, rows_len);
    if (members_len < rows_len && a.number > 2 && WRONG == 356) /* 356: 8 before the rows */
        return refused(8, 0);
    if (members_len < rows_len && a.number == 11 && WRONG == 357) /* 357: 8 before 11 */
        return refused(8, 0);
    if (a.number != 0)
        return refused(a.number, a.row);
    if (members_len < rows_len + (WRONG == 358)) { /* 358: one entry more is asked for */
        if (WRONG == 359) /* 359: written though refused */
            memset(members, 0, members_len * sizeof *members);
        return refused(WRONG == 360 ? 7 : 8, 0); /* 360: 7 */
    }
    for (size_t i = 0; i < rows_len; i++)
        t.latest = rows[i].due > t.latest ? rows[i].due : t.latest;
    struct jam jam = search(&t);
    mark_rows(&t, jam, members, members_len);
    return told(&t, jam);
}
