/* Plans a slotted ring: which message each link carries in each slot, so that every message is in time; says why a table is
   late; reads and writes its table as text; edits a table row by row; says an answer in the words of a catalogue. No call
   takes more than 32 KiB of stack or keeps anything. Link with libpanel.a (docs/PANEL.md says how to build it). */
#ifndef GARBOARDLE_H
#define GARBOARDLE_H

#include <stddef.h>
#include <stdint.h>

#ifdef __cplusplus
extern "C" {
#endif

#define GARBOARDLE_MOST_NODES 32
#define GARBOARDLE_MOST_LINKS GARBOARDLE_MOST_NODES
#define GARBOARDLE_MOST_ROWS 512
#define GARBOARDLE_LATEST_DUE 1024
#define GARBOARDLE_MOST_LENGTH 64
#define GARBOARDLE_MOST_CELLS 1024

/* Areas of these lengths are long enough for every table. */
#define GARBOARDLE_MOST_ENTRIES (GARBOARDLE_MOST_NODES * GARBOARDLE_LATEST_DUE)
#define GARBOARDLE_MOST_ARRIVALS GARBOARDLE_MOST_ROWS
#define GARBOARDLE_LONGEST_TEXT 20501

/* Planning takes no more looks than this, whatever the table. */
#define GARBOARDLE_MOST_LOOKS (GARBOARDLE_MOST_CELLS * (GARBOARDLE_LATEST_DUE + 1u))

/* Areas of these lengths are long enough for every sentence, which is a string, a space, a row, a space and a slot, and for
   every label. */
#define GARBOARDLE_LONGEST_SENTENCE (96 + 1 + 5 + 1 + 5)
#define GARBOARDLE_LONGEST_LABEL 96

/* One message: len cells from node src to node dst, the last of them there at instant due or before. Each cell moves by
   itself, and none overtakes an earlier one. Where src equals dst it goes once round, over every link, and is there after
   as many moves as there are nodes. Rows are numbered from 1, in list order. */
struct garboardle_row {
    uint16_t src;
    uint16_t dst;
    uint16_t len;
    uint16_t due;
};

/* The planner's answer. Accepted: number, row and slot are 0, and the figures are those of the plan, all 0 for an empty
   table. Refused: number says why, row and slot say where, and the figures are 0, but for the looks of a 9.

   One look is one undelivered cell at one instant at which the rule is applied, from instant 0 on. Accepted: looks is the
   sum of all cells' delivery instants. Refused with 9: it is the undelivered cells at each instant up to and with slot.
   Refused else: the rule was never applied, and it is 0.

   number  given when                            row  slot
   1       nodes outside 2 to 32                 0    0
   2       more than 512 rows                    0    0
   3       source not below nodes                row  0
   4       destination not below nodes           row  0
   10      length outside 1 to 64                row  0
   6       due slot outside 1 to 1,024           row  0
   11      more than 1,024 cells in all          0    0
   7       plan area shorter than needed         0    0
   8       arrivals area shorter than the rows   0    0
   9       late: no schedule is in time          row  instant

   They are checked in the order 1, 2, the rows in order with 3, 4, 10, 6 within a row, 11, 7, 8, 9; the first that holds
   is given. 5, for a source that equals its destination, is kept as a number and never given on a ring. */
struct garboardle_answer {
    uint16_t number;
    uint16_t row;
    uint16_t slot;
    uint16_t last;  /* last delivery instant */
    uint32_t sends; /* sends: the sum of all cells' distances, nodes for one that goes once round */
    uint32_t sum;   /* sum of the rows' delivery instants */
    uint32_t looks; /* looks taken */
    double mean;    /* mean delay: sum / rows */
    double share;   /* used share: sends / (nodes * last) */
};

/* Plans the table of rows by the rule of least slack, cell by cell: a cell is due one slot earlier than the next of its row.

   The caller lends all three lists for the call, and nothing is kept of them after it: rows is read; plan and arrivals are
   written. None is null, not even with length 0, and plan and arrivals overlap neither each other nor rows.
   plan needs nodes * (largest due slot) entries, and arrivals one for each row.

   Accepted: plan[t * nodes + p] is the row of which link p carries a cell in slot t, 0 for idle: the earliest that stands
   at node p. arrivals[i] is the instant at which the last cell of row i + 1 is at its destination. Refused with 9: those
   entries of both are 0. Refused with any other number: both are as they were. No entry past those needed is touched. */
struct garboardle_answer garboardle_plan(uint16_t nodes, const struct garboardle_row *rows, size_t rows_len,
                                         uint16_t *plan, size_t plan_len, uint16_t *arrivals, size_t arrivals_len);

/* The most looks that planning this table can take, for a watchdog that must know before the call: cells * (largest due
   slot + 1), and 0 for a table that is refused with 1, 2, 3, 4, 10, 6 or 11. Whether it is late, or an area too short, is
   not asked.

   The caller lends rows for the call, and nothing is kept of them after it: they are read. rows is not null, not even with
   length 0. */
uint32_t garboardle_most_looks(uint16_t nodes, const struct garboardle_row *rows, size_t rows_len);

/* Why a table is late: more cells must cross one link than there are slots for them. cells 7, link 5 and before 6 say:
   seven cells must cross link 5 before slot 6, and there are the six slots 0 to 5, in each of which a link carries one
   cell. Link p leads out of node p. before is 0 where cells would have to be over the link before the first slot.

   Late: number, row and slot are 0, and cells is more than before. Not late: all six are 0. Refused: number says why, row
   says where, and slot, cells, link and before are 0.

   Each link is taken with the first slot before which it has too many cells; of several links it is the one with the
   fewest, the lowest on a tie. */
struct garboardle_reason {
    uint16_t number;
    uint16_t row;
    uint16_t slot;
    uint16_t cells;  /* how many cells must cross the link before the slot; 0 where the table is not late */
    uint16_t link;   /* the link that they must cross */
    uint16_t before; /* the slot before which they must, and so how many slots there are for them */
};

/* Says why the table of rows is late, from the rows alone: cells is not 0 exactly where garboardle_plan, with areas that
   are long enough, gives 9. A cell must cross a link of its way before a slot if crossing it in that slot would bring it to
   its destination too late, with no stop after that. Cell j of len is due len - j slots before its row.

   It is refused as planning is: 1, 2, the rows in order with 3, 4, 10, 6 within a row, 11, and then 8 for members shorter
   than the rows. 9 is never given.

   The caller lends both lists for the call, and nothing is kept of them after it: rows is read; members is written. Neither
   is null, not even with length 0, and they do not overlap. members needs one entry for each row.

   Late: members[i] is how many cells of row i + 1 are counted in cells, 0 for a row that has no part in it. The rows that
   have one are late whatever other rows the table has, so one of them has to be loosened. Not late: these entries are 0.
   Refused: members is as it was. No entry past those needed is touched. */
struct garboardle_reason garboardle_reason(uint16_t nodes, const struct garboardle_row *rows, size_t rows_len,
                                           uint16_t *members, size_t members_len);

/* A table as text is lines of key=value: nodes, rows, then src, dst, len and due for each row. Each is the key, an equals
   sign, a decimal numeral of 0 to 65535 with no leading zero, and one line feed. Nothing follows the last line.

   number  given when                                                          line
   2       more than 512 rows                                                  0
   20      a line is wrong or missing, or bytes follow the last                line
   21      lent list shorter than the rows (reading)                           0
   22      lent area too short (writing)                                       0

   The reader judges the lines in order, numbered from 1, and gives 2, then 21, directly after line 2. The writer gives 2,
   then 22. Neither judges the number of nodes or the rows' values: garboardle_plan does. */

/* The reader's answer. Read: number and line are 0. Refused: nodes and rows are 0. */
struct garboardle_read_answer {
    uint16_t number;
    uint16_t line;
    uint16_t nodes;
    uint16_t rows;
};

/* The writer's answer. Written: number is 0, and length is that of the text. Refused: length is 0. */
struct garboardle_write_answer {
    uint16_t number;
    size_t length;
};

/* Reads the table that a text holds: a right text fills as many of the lent rows as it has, a refused one none, and no
   other row is touched.

   The caller lends both lists for the call, and nothing is kept of them after it: text is read; rows are written. Neither
   is null, not even with length 0, and they do not overlap. */
struct garboardle_read_answer garboardle_read(const uint8_t *text, size_t text_len, struct garboardle_row *rows,
                                              size_t rows_len);

/* Writes the one text of a table, which garboardle_read reads back as the same nodes and rows, into the front of the
   area; a refusal writes nothing, and no byte past the text is touched.

   The caller lends both lists for the call, and nothing is kept of them after it: rows are read; area is written. Neither
   is null, not even with length 0, and they do not overlap. */
struct garboardle_write_answer garboardle_write(uint16_t nodes, const struct garboardle_row *rows, size_t rows_len,
                                                uint8_t *area, size_t area_len);

/* A table that is edited row by row, with the load of each link: how many cells cross it on their way from source up to
   destination, round node 0. One that goes once round crosses every link once. Link p leads out of node p.

   The panel owns the area, 4,164 bytes without gaps, and lends it for each call; nothing is kept of it after the call. The
   panel may read every field at any time, and hand row and rows to garboardle_plan and garboardle_write, but it writes to
   none: the functions keep load in step with row, and zeros behind the last row. */
struct garboardle_table {
    uint16_t nodes;
    uint16_t rows;                                   /* number of rows */
    uint16_t load[GARBOARDLE_MOST_LINKS];            /* load[p] is that of link p; zeros from nodes on */
    struct garboardle_row row[GARBOARDLE_MOST_ROWS]; /* row[i] is row i + 1 */
};

/* Opening, editing and showing a row are refused so, checked in this order; the first that holds is given. A refused call
   leaves the whole area as it was.

   number  given when                                                             row
   1       nodes outside 2 to 32: those given to opening, else those of the area  0
   2       adding where 512 rows are there, or an area that says more than 512    0
   12      changing, removing or showing a row that is not there                  the number asked for
   3       source not below nodes                                                 row
   4       destination not below nodes                                            row
   10      length outside 1 to 64                                                 row
   6       due slot outside 1 to 1,024                                            row

   3, 4, 10 and 6 are about the row that is given: to adding, under its coming number, or to changing, under the number
   asked for. How many cells the rows have in all is no matter here: planning gives 11. An area of zeros that was never
   opened gives 1. */

/* The answer of opening and editing, and of judging a catalogue. Done: all three are 0. Refused: number says why, row says
   where, and slot is 0. */
struct garboardle_edit_answer {
    uint16_t number;
    uint16_t row;
    uint16_t slot;
};

/* The answer of showing a row. Shown: number, row and slot are 0. Refused: src, dst, len and due are 0, and so is slot. */
struct garboardle_row_answer {
    uint16_t number;
    uint16_t row;
    uint16_t slot;
    uint16_t src;
    uint16_t dst;
    uint16_t len;
    uint16_t due;
};

/* A link, and how many cells cross it. */
struct garboardle_link {
    uint16_t link;
    uint16_t load;
};

/* In all functions below the table is lent for the call. It is never null, and may hold any numbers: an area that nobody
   opened a table in, or that somebody damaged, is refused with 1 or 2, or edited as it stands. There a load goes no
   further than 0 or 65,535; where only these functions wrote to the area, none would. */

/* Opens an empty table for so many nodes, whatever the area held: every other number becomes 0. */
struct garboardle_edit_answer garboardle_open(struct garboardle_table *table, uint16_t nodes);

/* Adds a row at the end, and counts its cells on the links of its way; no other load changes. */
struct garboardle_edit_answer garboardle_add(struct garboardle_table *table, struct garboardle_row row);

/* Puts a row in the place of row number, and counts the old one out and the new one in; no load changes but on the links
   of these two ways. */
struct garboardle_edit_answer garboardle_change(struct garboardle_table *table, uint16_t number,
                                                struct garboardle_row row);

/* Removes row number, and counts it out: later rows move down one number, and zeros come in behind the last. */
struct garboardle_edit_answer garboardle_remove(struct garboardle_table *table, uint16_t number);

/* The number of rows. */
uint16_t garboardle_row_count(const struct garboardle_table *table);

/* Row number, for the operator to see. */
struct garboardle_row_answer garboardle_row_of(const struct garboardle_table *table, uint16_t number);

/* How many cells cross a link, 0 for a link that the ring does not have. */
uint16_t garboardle_link_load(const struct garboardle_table *table, uint16_t link);

/* The busiest link, the lowest on a tie, and its load: link 0 with load 0 for an empty table. */
struct garboardle_link garboardle_busiest(const struct garboardle_table *table);

/* Plans an edited table: the answer and both areas are those of garboardle_plan for the same nodes and rows, with 1 and 2
   for an area whose nodes or rows are so.

   plan and arrivals are lent as to garboardle_plan: neither is null, and they overlap neither each other nor the table,
   which is only read. */
struct garboardle_answer garboardle_plan_table(const struct garboardle_table *table, uint16_t *plan, size_t plan_len,
                                               uint16_t *arrivals, size_t arrivals_len);

/* The most looks that planning an edited table can take: those of garboardle_most_looks for the same nodes and rows, and 0
   for an area that is refused with 1 or 2. */
uint32_t garboardle_most_looks_table(const struct garboardle_table *table);

/* A catalogue has the words of one language, as text of 26 lines in this order: r0 for acceptance; r1 to r12, r20 to r22
   and r30 to r33 for the refusals of these numbers; f1 to f6 for the labels of nodes, source, destination, due slot,
   span and range. Each line is the key, an equals sign, a string of 1 to 96 bytes with no line feed among them, and one
   line feed. Nothing follows the last line, and no two labels are equal.

   number  given when                                                              row
   30      a line is wrong, missing or not ended, or bytes follow the last (27)    line
   31      the key is right, but the string is empty or longer than 96 bytes       line
   32      a label equals an earlier one                                           line, the first that repeats
   33      the number asked for has no sentence, or the field no label             0
   22      lent area too short                                                     0

   The lines are judged in order, numbered from 1, and the first that is wrong decides; then 32, 33 and 22 follow. Nothing
   asks which bytes a string holds: a carriage return before the line feed is its last byte. */

/* The answer of writing a sentence or a label. Written: number and row are 0, and length says how many bytes were. Refused:
   number says why, row says where, and length is 0. slot is always 0. */
struct garboardle_sentence_answer {
    uint16_t number;
    uint16_t row;
    uint16_t slot;
    size_t length;
};

/* In all three functions below the caller lends catalogue and area for the call, and nothing is kept of them after it:
   catalogue is read; area is written. Neither is null, not even with length 0, and they do not overlap. A refusal leaves the
   area as it was, and no byte past those written is touched. No NUL is written behind them. */

/* What a catalogue comes to: 0 where it is accepted, else 30, 31 or 32. */
struct garboardle_edit_answer garboardle_catalogue(const uint8_t *catalogue, size_t catalogue_len);

/* Writes the sentence of an answer: the string of its number, a space, the row, a space and the slot, both as numerals with
   no leading zero. The sentence of number 0 ends in 0 and 0, whatever row and slot are passed. The line of a refused text
   passes as the row. */
struct garboardle_sentence_answer garboardle_sentence(const uint8_t *catalogue, size_t catalogue_len, uint16_t number,
                                                      uint16_t row, uint16_t slot, uint8_t *area, size_t area_len);

/* Writes the label of a field, 1 to 6. */
struct garboardle_sentence_answer garboardle_label(const uint8_t *catalogue, size_t catalogue_len, uint16_t field,
                                                   uint8_t *area, size_t area_len);

#ifdef __cplusplus
}
#endif

#endif
