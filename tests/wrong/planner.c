/* A planner in C, and the most looks that it can take, with the fault that WRONG names, up to 28, from 219 on, from 253 on and
   from 266 on, and with none else. The tests must turn away every fault. */
#include "garboardle.h"

static struct garboardle_answer refused(unsigned number, unsigned row, unsigned slot)
{
    struct garboardle_answer a = {(uint16_t)number, (uint16_t)row, (uint16_t)slot, 0, 0, 0, 0, 0.0, 0.0};
    return a;
}

/* Refused since an area is too short, with the most looks that planning could have taken. */
static struct garboardle_answer too_short(unsigned number, size_t most)
{
    struct garboardle_answer a = refused(number, 0, 0);
    if ((WRONG == 266 && number == 7) || (WRONG == 267 && number == 8)) /* 266, 267: they are reported, though none was taken */
        a.looks = (uint32_t)most;
    return a;
}

static unsigned fault(unsigned n, struct garboardle_row r)
{
    if (r.src >= n)
        return 3;
#if WRONG == 1 /* 6 before 4 */
    if (r.dst >= n && (r.due == 0 || r.due > 1024))
        return 6;
#endif
    if (r.dst >= n)
        return 4;
#if WRONG == 253 /* 5 for a full turn */
    if (r.src == r.dst)
        return 5;
#elif WRONG == 254 /* 5 for a full turn that is due past 1,024 */
    if (r.src == r.dst && r.due > 1024)
        return 5;
#endif
#if WRONG == 219 /* 6 before 10 */
    if (r.due == 0 || r.due > 1024)
        return 6;
#endif
    if ((r.len == 0 && WRONG != 220) || r.len > (WRONG == 221 ? 65 : WRONG == 222 ? 63 : 64)) /* 220: no cells; 221: 65; 222: 63 */
        return 10;
#if WRONG == 2 /* due slots up to 1,023 */
    if (r.due == 0 || r.due > 1023)
        return 6;
#endif
    if (r.due == 0 || r.due > 1024)
        return 6;
    return 0;
}

/* One cell: the index of its row, its due slot, its destination, its links to go, and where it stands. */
struct cell {
    int row;
    int due;
    int dst;
    int left;
    unsigned at;
    int last; /* whether it is its row's last */
    int turn; /* whether it goes once round */
};

/* The links that a row's cells have to go: all where it goes to its own node. */
static unsigned links(struct garboardle_row r, unsigned n)
{
    if (r.src == r.dst)
        return WRONG == 255 ? 0 : WRONG == 256 ? n - 1 : n; /* 255: a full turn is none; 256: it ends a node too early */
    return (r.dst + n - r.src) % n;
}

/* Lays a row out as cells, and says how many. */
static int lay(struct cell *cells, int i, struct garboardle_row r, unsigned n)
{
    int left = (int)links(r, n);
    for (int k = 0; k < r.len; k++) {
        int behind = r.len - 1 - k;
#if WRONG == 223 /* all cells due with the row */
        behind = 0;
#elif WRONG == 224 /* the first cell due with the row, later ones after it */
        behind = -k;
#elif WRONG == 225 /* every other slot */
        behind *= 2;
#elif WRONG == 226 /* cells in the other order */
        behind = k;
#endif
        struct cell c = {i, r.due - behind, r.dst, left, r.src, k == r.len - 1, r.src == r.dst};
        cells[k] = c;
    }
    return r.len;
}

/* What is taken from a cell's due slot to choose by: its links to go. */
static int to_go(struct cell c, int n)
{
    if (WRONG == 257 && c.left == n) /* 257: without its turn where a full turn has not begun */
        return 0;
    if (WRONG == 258 && c.turn && (int)c.at < c.dst) /* 258: not corrected past node 0 */
        return c.left + n;
    return c.left;
}

/* Whether cell i goes before cell j, both at one node. */
static int before(const struct cell *cells, int i, int j, int n)
{
    int a = cells[i].due - to_go(cells[i], n), b = cells[j].due - to_go(cells[j], n);
#if WRONG == 3 /* earliest due slot first */
    a = cells[i].due, b = cells[j].due;
#elif WRONG == 4 /* no turn past node 0 */
    a = cells[i].due - cells[i].dst, b = cells[j].due - cells[j].dst;
#elif WRONG == 5 /* the higher row on a tie */
    return a <= b;
#elif WRONG == 6 /* farthest destination first */
    a = -cells[i].left, b = -cells[j].left;
#elif WRONG == 227 /* the lower row first, whatever its slack */
    if (cells[i].row != cells[j].row)
        return cells[i].row < cells[j].row;
#endif
    return a < b;
}

/* Moves a cell one node on. */
static void go_on(struct cell *c, unsigned n)
{
    c->left--;
    c->at = (c->at + 1) % n;
}

/* Whether a cell can't be in time any more. */
static int is_late(struct cell c, unsigned t, unsigned n)
{
    if (WRONG == 259 && c.left == (int)n) /* 259: the same where it is judged late */
        return c.due - (int)t < 0;
    return c.left > 0 && c.due - (int)t - (WRONG == 15 ? 0 : c.left) < 0; /* 15: late when the due slot is past */
}

/* Whether a cell that was not sent counts as there. */
static int is_there(struct cell c, unsigned t, unsigned n)
{
    if (WRONG == 260) /* 260: at the start, since it stands at its destination */
        return t == 0 && c.turn;
    if (WRONG == 261) /* 261: the same of a cell that still waits a slot later */
        return t == 1 && c.left == (int)n;
    return WRONG == 255 && t == 0 && c.turn;
}

/* The looks of one instant: its undelivered cells. */
static uint32_t looks_at(const struct cell *cells, int count)
{
    uint32_t looks = 0;
    for (int i = 0; i < count; i++)
        looks += (cells[i].left > 0 || WRONG == 268) && (cells[i].last || WRONG != 269); /* 268: delivered ones too; 269: rows */
    return looks;
}

struct garboardle_answer garboardle_plan(uint16_t nodes, const struct garboardle_row *rows, size_t rows_len,
                                         uint16_t *plan, size_t plan_len, uint16_t *arrivals, size_t arrivals_len)
{
    unsigned n = nodes;
    struct cell cells[1024];
    int chosen[32];
    if (n < 2 || n > (WRONG == 7 ? 31 : 32)) /* 7: at most 31 nodes */
        return refused(1, 0, 0);
    if (rows_len > (WRONG == 8 ? 511 : 512)) /* 8: at most 511 rows */
        return refused(2, 0, 0);
    for (size_t i = 0; i < rows_len; i++)
        if (fault(n, rows[i]))
            return refused(fault(n, rows[i]), (unsigned)i + (WRONG != 9), 0); /* 9: rows numbered from 0 */

#if WRONG == 28 /* a look at the row past the last */
    if (rows_len > 0 && *(const volatile uint16_t *)&rows[rows_len].src == 12345)
        return refused(9, 0, 0);
#endif

    size_t latest = 0, total = 0;
    uint32_t sends = 0, sum = 0;
    for (size_t i = 0; i < rows_len; i++) {
        uint32_t way = WRONG == 262 && rows[i].src == rows[i].dst ? 0 : links(rows[i], n); /* 262: sends without full turns */
        sends += WRONG == 228 ? way : way * rows[i].len; /* 228: sends of rows */
        latest = rows[i].due > latest ? rows[i].due : latest;
        total += rows[i].len;
#if WRONG == 229 /* 11 names the row that is too much */
        if (total > 1024)
            return refused(11, (unsigned)i + 1, 0);
#endif
    }
#if WRONG == 230 /* 7 before 11 */
    if (plan_len < n * latest)
        return refused(7, 0, 0);
#endif
    if (total > (WRONG == 231 ? 1023 : 1024)) /* 231: at most 1,023 cells */
        return refused(WRONG == 232 ? 2 : 11, 0, 0); /* 232: 2 for cells too */
    int count = 0, under_way = 0;
    for (size_t i = 0; i < rows_len; i++)
        count += lay(cells + count, (int)i, rows[i], n);
    under_way = count;
    size_t needed = n * latest, filled = needed, most = total * (latest + 1);
#if WRONG == 10 /* 8 before 7 */
    if (arrivals_len < rows_len)
        return refused(8, 0, 0);
#endif
    if (plan_len < needed + (WRONG == 11)) /* 11: one entry more is asked for */
        return too_short(7, most);
    if (arrivals_len < rows_len)
        return too_short(8, most);
#if WRONG == 12 /* an entry past the plan's is cleared too */
    filled = needed < plan_len ? needed + 1 : needed;
#elif WRONG == 27 /* the same, even where the area ends there */
    filled = needed + 1;
#elif WRONG == 13 /* the last entry is left as it was */
    filled = needed > 0 ? needed - 1 : needed;
#elif WRONG == 14 /* a plan in an area that the caller cleared */
    filled = 0;
#endif
    for (size_t k = 0; k < filled; k++)
        plan[k] = 0;

    unsigned t = 0, last = 0;
    uint32_t looks = WRONG == 270 ? 1 : 0; /* 270: one too many */
    for (; under_way > 0; t++) {
        for (int i = 0; i < count; i++)
            if (is_there(cells[i], t, n)) {
                cells[i].left = 0;
                if (cells[i].last)
                    arrivals[cells[i].row] = (uint16_t)t;
                under_way--;
            }
        uint32_t looks_before = looks;
        looks += WRONG == 271 && t == 0 ? 0 : looks_at(cells, count); /* 271: none at instant 0 */
        int late = -1;
        for (int i = count - 1; i >= 0; i--)
            if (is_late(cells[i], t, n) && (WRONG != 233 || cells[i].last)) /* 233: only a row's last cell is late */
                late = WRONG == 234 ? i : cells[i].row;                     /* 234: the late cell, not its row */
#if WRONG == 16 /* the late row by the order of nodes */
        for (unsigned p = n; late >= 0 && p-- > 0;)
            for (int i = count - 1; i >= 0; i--)
                if (cells[i].at == p && is_late(cells[i], t, n))
                    late = cells[i].row;
#elif WRONG == 17 /* refuses everything */
        late = 0;
#endif
        if (late >= 0) {
            for (size_t k = 0; k < needed && WRONG != 18; k++) /* 18: what was planned so far is left standing */
                plan[k] = 0;
            for (size_t i = 0; i < rows_len && WRONG != 19; i++) /* 19: the same of the arrivals */
                arrivals[i] = 0;
            struct garboardle_answer a = refused(9, (unsigned)late + 1, WRONG == 20 ? t + 1 : t); /* 20: one instant more */
            a.looks = WRONG == 272 ? 0 : WRONG == 273 ? looks_before : looks; /* 272: none; 273: without the late instant */
            return a;
        }
        for (unsigned p = 0; p < n; p++) {
            chosen[p] = -1;
            for (int i = 0; i < count; i++)
                if (cells[i].at == p && cells[i].left > 0 && (chosen[p] < 0 || before(cells, i, chosen[p], (int)n)))
                    chosen[p] = i;
#if WRONG == 21 /* idles while there is time */
            if (chosen[p] >= 0 && p == 1 && t == 0 && cells[chosen[p]].due > cells[chosen[p]].left)
                chosen[p] = -1;
#elif WRONG == 22 /* two links in one slot: a node sees what the node before it has just sent */
            if (chosen[p] >= 0)
                go_on(&cells[chosen[p]], n);
#endif
        }
        for (unsigned p = 0; p < n; p++) {
            int i = chosen[p];
            if (i < 0)
                continue;
            struct cell *c = &cells[i];
            plan[t * n + p] = (uint16_t)((WRONG == 235 ? i : c->row) + 1); /* 235: the cell, not its row */
            if (WRONG != 22)
                go_on(c, n);
            if (c->left == 0) {
                int first = c == cells || c[-1].row != c->row;
                last = t + 1;
                if (WRONG == 236 ? first : c->last) /* 236: the first cell's arrival */
                    arrivals[c->row] = (uint16_t)last;
                sum += c->last || WRONG == 237 ? last : 0; /* 237: the sum over cells */
                under_way--;
            }
        }
        if (t > 2000)
            break;
    }
    if (rows_len == 0)
        return refused(0, 0, 0);
    /* 238: the mean over cells */
    struct garboardle_answer a = {0, 0, 0, (uint16_t)last, sends, sum, looks, (double)sum / (double)(WRONG == 238 ? total : rows_len), (double)sends / (double)(n * last)};
#if WRONG == 23 /* rounded twice */
    a.mean = (float)a.mean;
#elif WRONG == 24 /* the share of all slots up to the largest due one */
    a.share = (double)sends / (double)needed;
#elif WRONG == 25 /* sends as the used entries and one */
    a.sends++;
#elif WRONG == 26 /* the quotient by way of an inverse */
    a.share = (double)sends * (1.0 / (double)(n * last));
#elif WRONG == 274 /* each cell at its delivery instant too */
    a.looks += (uint32_t)count;
#elif WRONG == 275 /* the most looks, not those taken */
    a.looks = (uint32_t)most;
#elif WRONG == 276 /* looks of 16 bits */
    a.looks = (uint16_t)a.looks;
#endif
    return a;
}

/* Whether planning gives this number whatever areas are lent, so that there are no looks. */
static int is_refused(unsigned number)
{
#if WRONG == 277 /* looks though the ring is none */
    if (number == 1)
        return 0;
#elif WRONG == 278 /* though there are too many rows */
    if (number == 2)
        return 0;
#elif WRONG == 279 /* though a row is wrong */
    return number == 1 || number == 2 || number == 11;
#elif WRONG == 280 /* though there are too many cells */
    if (number == 11)
        return 0;
#endif
    return number != 0 && number != 7 && number != 8;
}

uint32_t garboardle_most_looks(uint16_t nodes, const struct garboardle_row *rows, size_t rows_len)
{
    uint16_t plan, arrivals;
    uint32_t cells = 0, latest = 0;
    if (WRONG == 281 && rows_len > 0) /* 281: without the last row */
        rows_len--;
    if (is_refused(garboardle_plan(nodes, rows, rows_len, &plan, 0, &arrivals, 0).number))
        return 0;
    for (size_t i = 0; i < rows_len; i++) {
        cells += WRONG == 282 ? 1 : rows[i].len;              /* 282: rows */
        if (rows[i].due > latest && (WRONG != 283 || i == 0)) /* 283: the first row's due slot */
            latest = rows[i].due;
    }
    if (WRONG == 284 && *(const volatile uint16_t *)&rows[rows_len].src == 12345) /* 284: a look past the rows */
        return 0;
    uint32_t most = cells * (latest + (WRONG != 285)); /* 285: without the last instant */
    return WRONG == 286 ? (uint16_t)most : most;       /* 286: in 16 bits */
}

uint32_t garboardle_most_looks_table(const struct garboardle_table *t)
{
    size_t rows = t->rows;
    if (WRONG == 287) /* 287: all places of the area */
        rows = 512;
    if (WRONG == 288 && rows > 512) /* 288: the first 512 rows of an area that has too many */
        rows = 512;
    if (WRONG == 289 && *(const volatile uint16_t *)(t + 1) == 12345) /* 289: a look past the area */
        return 0;
    return garboardle_most_looks(t->nodes, t->row, rows);
}
