/* sentence CATALOGUE-FILE TABLE-FILE: reads a table's text, plans the table, and prints the sentence of the answer in the
   catalogue's language. */
#include "garboardle.h"

#include <stdio.h>

/* More bytes than a right catalogue has, and as many as the longest table. */
static uint8_t catalogue[4096];
static uint8_t text[GARBOARDLE_LONGEST_TEXT];

static struct garboardle_row rows[GARBOARDLE_MOST_ROWS];
static uint16_t plan[GARBOARDLE_MOST_ENTRIES];
static uint16_t arrivals[GARBOARDLE_MOST_ARRIVALS];

/* The length of an array. */
#define LENGTH(a) (sizeof(a) / sizeof((a)[0]))

/* Fills an area from an open file, and says why not where the file can't be read or is longer; NULL where it is all there. */
static const char *fill(FILE *file, uint8_t *area, size_t area_len, size_t *length)
{
    *length = fread(area, 1, area_len, file);
    int more = fgetc(file) != EOF;
    if (ferror(file))
        return "cannot be read";
    return more ? "too long" : NULL;
}

/* Reads a whole file into an area; 0 where it did not, with a message. */
static int read_file(const char *name, uint8_t *area, size_t area_len, size_t *length)
{
    const char *fault = "cannot be read";
    FILE *file = fopen(name, "rb");
    if (file != NULL) {
        fault = fill(file, area, area_len, length);
        fclose(file);
    }
    if (fault != NULL)
        fprintf(stderr, "%s: %s\n", name, fault);
    return fault == NULL;
}

/* What reading and planning a text comes to; a refused text names its line as the row. */
static struct garboardle_answer answer_of(size_t length)
{
    struct garboardle_answer a = {0};
    struct garboardle_read_answer r = garboardle_read(text, length, rows, LENGTH(rows));
    if (r.number == 0)
        return garboardle_plan(r.nodes, rows, r.rows, plan, LENGTH(plan), arrivals, LENGTH(arrivals));
    a.number = r.number;
    a.row = r.line;
    return a;
}

/* Prints the sentence of an answer, and says whether the catalogue had one. */
static int say(const char *name, size_t catalogue_length, struct garboardle_answer a)
{
    uint8_t area[GARBOARDLE_LONGEST_SENTENCE];
    struct garboardle_sentence_answer s =
        garboardle_sentence(catalogue, catalogue_length, a.number, a.row, a.slot, area, LENGTH(area));
    if (s.number != 0) {
        fprintf(stderr, "%s: refused with %u at line %u\n", name, (unsigned)s.number, (unsigned)s.row);
        return 0;
    }
    return fwrite(area, 1, s.length, stdout) == s.length && putchar('\n') != EOF && fflush(stdout) == 0;
}

int main(int count, char **words)
{
    size_t catalogue_length, text_length;
    if (count != 3) {
        fprintf(stderr, "usage: sentence CATALOGUE-FILE TABLE-FILE\n");
        return 2;
    }
    if (!read_file(words[1], catalogue, LENGTH(catalogue), &catalogue_length) ||
        !read_file(words[2], text, LENGTH(text), &text_length))
        return 1;
    return say(words[1], catalogue_length, answer_of(text_length)) ? 0 : 1;
}
