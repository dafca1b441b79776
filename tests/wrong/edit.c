/* Opening, editing and showing a table in C, with the fault that WRONG names, from 57 on, from 244 on and from 263 on, and
   with none else. The tests must turn away every fault. */
#include "garboardle.h"

#include <string.h>

static struct garboardle_edit_answer answer(unsigned number, unsigned row)
{
    struct garboardle_edit_answer a = {(uint16_t)number, (uint16_t)row, WRONG == 57 && number == 12}; /* 57: a slot with 12 */
    return a;
}

static unsigned size_fault(unsigned nodes, unsigned rows)
{
    if (nodes < (WRONG == 58 ? 1 : 2) || nodes > (WRONG == 59 ? 31 : 32)) /* 58: a ring of 1; 59: at most 31 nodes */
        return 1;
    return rows > 512 ? 2 : 0;
}

static unsigned row_fault(unsigned n, struct garboardle_row r)
{
    if (WRONG == 60 && r.dst >= n) /* 60: 4 before 3 */
        return 4;
    if (r.src >= n + (WRONG == 61)) /* 61: a source one off the ring */
        return 3;
    if (r.dst >= n)
        return 4;
    if (r.src == r.dst && WRONG == 62) /* 62: 5 for a full turn */
        return 5;
    if (WRONG == 244 && (r.due == 0 || r.due > 1024)) /* 244: 6 before 10 */
        return 6;
    if (WRONG != 245 && (r.len == 0 || r.len > (WRONG == 246 ? 65 : 64))) /* 245: never 10; 246: 65 cells */
        return 10;
    return r.due == 0 || r.due > (WRONG == 63 ? 1023 : 1024) ? 6 : 0; /* 63: due slots up to 1,023 */
}

/* What is wrong with asking for a row. */
static unsigned asked_fault(const struct garboardle_table *t, unsigned number)
{
    unsigned size = size_fault(t->nodes, t->rows);
    if (size != 0 && WRONG != 64) /* 64: 12 where no table is open */
        return size;
    if (number == 0 || number > t->rows || size != 0)
        return 12;
    return 0;
}

/* The row that a refusal of a row asked for names. */
static unsigned named(unsigned fault, unsigned number)
{
    if (WRONG == 65 && fault == 12) /* 65: 12 names no row */
        return 0;
    if (WRONG == 66 && fault == 2) /* 66: 2 names the row asked for */
        return number;
    return fault < 3 ? 0 : number;
}

/* Whether link p lies on a row's way. */
static int crosses(struct garboardle_row r, unsigned p)
{
    unsigned src = r.src + (WRONG == 67), dst = r.dst + (WRONG == 68); /* 67: without the first link; 68: a link too far */
    if (WRONG == 69 && r.src > r.dst) /* 69: no way past node 0 */
        return src <= p;
    if (WRONG == 70 && r.src > r.dst) /* 70: the links that it leaves out */
        return dst <= p && p < src;
    if (WRONG == 71 && r.src == r.dst) /* 71: a full turn crosses no link */
        return 0;
    if (WRONG == 263 && r.src == r.dst) /* 263: it does not cross the link out of its node */
        return p != r.src;
    return r.src < r.dst ? src <= p && p < dst : src <= p || p < dst;
}

static uint16_t stepped(uint16_t load, unsigned cells, int up)
{
    unsigned most = WRONG == 72 ? 255 : 65535; /* 72: counts of a byte */
    if (WRONG == 247) /* 247: counts rows */
        cells = 1;
    if (up && load + cells > most && WRONG != 73) /* 73: past the last number to 0 */
        return WRONG == 248 ? load : (uint16_t)(load > most ? load : most); /* 248: stays where it would pass the last number */
    if (up)
        return (uint16_t)(load + cells);
    if (load < cells && WRONG != 74) /* 74: past 0 to the last number */
        return WRONG == 249 ? load : 0; /* 249: stays where it would pass 0 */
    return (uint16_t)(load - cells);
}

/* Counts a row in or out. */
static void count(struct garboardle_table *t, struct garboardle_row r, int up)
{
    unsigned links = WRONG == 75 ? 32 : t->nodes; /* 75: links that the ring hasn't, too */
    for (unsigned p = 0; p < links; p++)
        if (crosses(r, p))
            t->load[p] = stepped(t->load[p], r.len, up);
}

#if WRONG == 76 /* every load anew, whatever the area held on other links */
static void recount(struct garboardle_table *t)
{
    memset(t->load, 0, sizeof t->load);
    for (unsigned i = 0; i < t->rows; i++)
        count(t, t->row[i], 1);
}
#else
#define recount(t) ((void)(t))
#endif

struct garboardle_edit_answer garboardle_open(struct garboardle_table *t, uint16_t nodes)
{
    if (WRONG == 77) /* 77: cleared before it is judged */
        memset(t, 0, sizeof *t);
    if (size_fault(nodes, 0) != 0)
        return answer(1, 0);
    if (WRONG == 78) /* 78: rows left standing behind the last */
        memset(t, 0, offsetof(struct garboardle_table, row));
    else if (WRONG == 79) /* 79: loads left standing */
        memset(t->row, 0, sizeof t->row);
    else
        memset(t, 0, sizeof *t - (WRONG == 80)); /* 80: all but the last byte */
    t->nodes = nodes;
    t->rows = 0;
    return answer(0, 0);
}

struct garboardle_edit_answer garboardle_add(struct garboardle_table *t, struct garboardle_row r)
{
    unsigned rows = t->rows, most = WRONG == 81 ? 511 : WRONG == 82 ? 513 : 512; /* 81: at most 511 rows; 82: a row past the area */
    unsigned size = size_fault(t->nodes, rows), wrong = row_fault(t->nodes, r);
    if (size != 0)
        return answer(size, 0);
    if (WRONG == 83 && wrong != 0) /* 83: 3 to 6 before 2 */
        return answer(wrong, rows + 1);
    if (rows >= most)
        return answer(2, WRONG == 84 ? rows + 1 : 0); /* 84: 2 names a row */
    if (WRONG == 126) /* 126: counted before the row is judged */
        count(t, r, 1);
    if (wrong != 0)
        return answer(wrong, WRONG == 85 ? rows : rows + 1); /* 85: named under the last number */
    if (WRONG == 251) { /* 251: 11 in editing */
        size_t cells = r.len;
        for (unsigned i = 0; i < rows; i++)
            cells += t->row[i].len;
        if (cells > 1024)
            return answer(11, 0);
    }
    if (WRONG != 86 && WRONG != 126) /* 86: not counted */
        count(t, r, 1);
    unsigned at = rows;
    if (WRONG == 87 && rows > 0) { /* 87: at the front */
        memmove(t->row + 1, t->row, rows * sizeof *t->row);
        at = 0;
    }
    t->row[at] = r;
    t->rows = (uint16_t)(rows + 1);
    if (WRONG == 88 && rows < 511) /* 88: clears the place behind it */
        memset(t->row + rows + 1, 0, sizeof *t->row);
    recount(t);
    return answer(0, 0);
}

struct garboardle_edit_answer garboardle_change(struct garboardle_table *t, uint16_t number, struct garboardle_row r)
{
    unsigned missing = asked_fault(t, number), wrong = row_fault(t->nodes, r);
    if (WRONG == 89 && missing == 12 && wrong != 0) /* 89: 3 to 6 before 12 */
        return answer(wrong, number);
    if (WRONG == 265 && missing == 0 && wrong == 0 && r.src == r.dst) /* 265: 5 where a row is changed to a full turn */
        return answer(5, number);
    if (WRONG == 90 && missing == 12 && number == t->rows + 1) /* 90: adds a row under the coming number */
        return garboardle_add(t, r);
    if (missing != 0)
        return answer(missing, named(missing, number));
    struct garboardle_row *old = &t->row[number - 1];
    if (WRONG == 91) /* 91: counted out before the row is judged */
        count(t, *old, 0);
    if (wrong != 0)
        return answer(wrong, WRONG == 92 ? number - 1u : number); /* 92: named by its place */
    if (WRONG == 93) /* 93: the new row in first */
        count(t, r, 1);
    int stays = WRONG == 94 || (WRONG == 264 && old->src == old->dst); /* 94: the old row stays counted; 264: a full turn */
    if (WRONG != 91 && !stays)
        count(t, *old, 0);
    if (WRONG != 93 && WRONG != 95) /* 95: the new row is not counted */
        count(t, r, 1);
    if (WRONG == 96) /* 96: keeps the old due slot */
        r.due = old->due;
    if (WRONG == 252) /* 252: keeps the old length */
        r.len = old->len;
    *old = r;
    recount(t);
    return answer(0, 0);
}

/* Takes the row in place i out. */
static void close_gap(struct garboardle_table *t, unsigned i)
{
    unsigned last = t->rows - 1u, gap = WRONG == 99 && i > 0 ? i - 1 : i; /* 99: the row before it is taken out */
    if (WRONG == 97) /* 97: the last row comes into the gap */
        t->row[i] = t->row[last];
    else if (WRONG == 98) /* 98: only the next row moves */
        memmove(t->row + i, t->row + i + 1, i < last ? sizeof *t->row : 0);
    else if (WRONG != 100) /* 100: no row moves */
        memmove(t->row + gap, t->row + gap + 1, (last - gap) * sizeof *t->row);
    if (WRONG != 101) /* 101: the last row stands twice */
        memset(t->row + last, 0, sizeof *t->row);
    if (WRONG == 102 && last < 511) /* 102: clears the place behind it too */
        memset(t->row + last + 1, 0, sizeof *t->row);
    t->rows = (uint16_t)last;
}

struct garboardle_edit_answer garboardle_remove(struct garboardle_table *t, uint16_t number)
{
    if (WRONG == 103 && number == 0 && asked_fault(t, t->rows) == 0) /* 103: 0 is the last row */
        number = t->rows;
    unsigned missing = asked_fault(t, number);
    if (missing != 0)
        return answer(missing, named(missing, number));
    if (WRONG != 104) /* 104: stays counted */
        count(t, t->row[WRONG == 105 ? t->rows - 1 : number - 1], 0); /* 105: the last row is counted out */
    close_gap(t, number - 1u);
    recount(t);
    return answer(0, 0);
}

uint16_t garboardle_row_count(const struct garboardle_table *t)
{
    return WRONG == 106 && t->rows > 512 ? 512 : t->rows; /* 106: never more than 512 */
}

struct garboardle_row_answer garboardle_row_of(const struct garboardle_table *t, uint16_t number)
{
    struct garboardle_row_answer a = {0, 0, 0, 0, 0, 0, 0};
    unsigned missing = asked_fault(t, number);
    if (WRONG == 107 && missing == 2 && 1 <= number && number <= 512) /* 107: shows rows of an area that has too many */
        missing = 0;
    a.number = (uint16_t)missing;
    a.row = (uint16_t)named(missing, number);
    if (missing != 0 && !(WRONG == 108 && 1 <= number && number <= 512)) /* 108: shows what stands there, with its refusal */
        return a;
    struct garboardle_row r = t->row[WRONG == 109 && number < 512 ? number : number - 1]; /* 109: rows numbered from 0 */
    a.src = r.src;
    a.dst = WRONG == 110 ? r.due : r.dst; /* 110: due slot as destination */
    a.len = WRONG == 250 ? 1 : r.len; /* 250: every length as 1 */
    a.due = WRONG == 110 ? r.dst : r.due;
    if (WRONG == 111 && missing == 0) /* 111: names the row that it shows */
        a.row = number;
    return a;
}

uint16_t garboardle_link_load(const struct garboardle_table *t, uint16_t link)
{
    unsigned links = t->nodes < 32 ? t->nodes : 32;
    if (WRONG == 112) /* 112: links that the ring hasn't */
        links = 32;
    if (WRONG == 113 && links > 0) /* 113: round the ring */
        link = (uint16_t)(link % links);
    if (WRONG == 114 && t->nodes > 32 && link < t->nodes && link < 40) /* 114: past the loads, into the rows */
        return (&t->nodes)[2 + link];
    if (WRONG == 115 && size_fault(t->nodes, t->rows) != 0) /* 115: 0 where no table is open */
        return 0;
    return link < links ? t->load[link] : 0;
}

struct garboardle_link garboardle_busiest(const struct garboardle_table *t)
{
    unsigned links = t->nodes < 32 && WRONG != 116 ? t->nodes : 32; /* 116: links that the ring hasn't, too */
    struct garboardle_link found = {0, 0};
    if (WRONG == 127 && *(const volatile uint16_t *)(t + 1) == 12345) /* 127: a look past the area */
        return found;
    if (WRONG == 117) /* 117: no link for an empty table */
        found.link = 65535;
    for (unsigned p = 0; p < links; p++)
        if (t->load[p] > found.load || (WRONG == 118 && t->load[p] == found.load)) { /* 118: the highest on a tie */
            found.link = (uint16_t)p;
            found.load = t->load[p];
        }
    if (WRONG == 119) /* 119: links numbered from 1 */
        found.link++;
    return found;
}

struct garboardle_answer garboardle_plan_table(const struct garboardle_table *t, uint16_t *plan, size_t plan_len,
                                               uint16_t *arrivals, size_t arrivals_len)
{
    size_t rows = t->rows;
    if (WRONG == 120 && rows > 0) /* 120: without the last row */
        rows--;
    if (WRONG == 121 && rows > 512) /* 121: the first 512 rows of an area that has too many */
        rows = 512;
    if (WRONG == 122) /* 122: all places of the area */
        rows = 512;
    if (WRONG == 123 && plan_len > 0) /* 123: one entry less than is lent */
        plan_len--;
    if (WRONG == 124 && arrivals_len > rows && rows > 0) /* 124: an arrival past the rows */
        arrivals[rows] = 0;
    if (WRONG == 125 && size_fault(t->nodes, t->rows) == 2) /* 125: clears the plan though it refuses */
        memset(plan, 0, plan_len * sizeof *plan);
    return garboardle_plan(t->nodes, t->row, rows, plan, plan_len, arrivals, arrivals_len);
}
