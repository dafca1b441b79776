/* A reader and a writer in C with the fault that WRONG names, from 29 on and from 239 on, and with none else. The tests must turn
   away every fault. */
#include "garboardle.h"

#include <stdio.h>
#include <string.h>

static struct garboardle_read_answer not_read(unsigned number, unsigned line)
{
    struct garboardle_read_answer a = {(uint16_t)number, (uint16_t)line, 0, 0};
    return a;
}

static struct garboardle_write_answer put(unsigned number, size_t length)
{
    struct garboardle_write_answer a = {(uint16_t)number, length};
    return a;
}

/* The value of the line of a key at *at, which then stands behind the line; -1 where it is wrong. */
static long line(const uint8_t *text, size_t len, size_t *at, const char *key)
{
    size_t i = *at, n = strlen(key), digits = 0;
    unsigned long value = 0;
    if (len - i < n || memcmp(text + i, key, n) != 0)
        return -1;
    i += n;
    size_t first = i;
#if WRONG == 29 /* a plus sign */
    if (i < len && text[i] == '+')
        first = ++i;
#endif
    while (i < len && digits < 12 && text[i] >= '0' && text[i] <= '9') {
        value = value * 10 + (text[i] - '0');
        digits++;
        i++;
    }
    if (digits == 0 && WRONG != 30) /* 30: no numeral is 0 */
        return -1;
    if (digits > 1 && text[first] == '0' && WRONG != 31) /* 31: leading zeros */
        return -1;
    if (value > (WRONG == 32 ? 65536 : 65535) && WRONG != 33) /* 32: up to 65,536; 33: the last 16 bits count */
        return -1;
#if WRONG == 34 /* CR LF */
    if (i < len && text[i] == '\r')
        i++;
#elif WRONG == 35 /* the last line needs no line feed */
    if (i == len) {
        *at = i;
        return (long)value;
    }
#elif WRONG == 36 /* a look past the text */
    if (text[i] == '\n' && i == len)
        return -1;
#endif
    if (i == len || text[i] != '\n')
        return -1;
    *at = i + 1;
    return (long)(value & 0xffff);
}

struct garboardle_read_answer garboardle_read(const uint8_t *text, size_t text_len, struct garboardle_row *rows,
                                              size_t rows_len)
{
    struct garboardle_row found[512];
    size_t at = 0;
    long nodes = line(text, text_len, &at, "nodes=");
    if (nodes < 0 || WRONG == 37) /* 37: refuses everything */
        return not_read(20, 1);
#if WRONG == 38 /* judges the nodes */
    if (nodes < 2 || nodes > 32)
        return not_read(1, 0);
#endif
    long count = line(text, text_len, &at, "rows=");
    if (count < 0)
        return not_read(20, WRONG == 39 ? 1 : 2); /* 39: names the last good line */
#if WRONG == 40 /* 21 before 2 */
    if (rows_len < (size_t)count)
        return not_read(21, 0);
#endif
    if (count > (WRONG == 41 ? 511 : 512)) /* 41: at most 511 rows */
        return WRONG == 42 && at == text_len ? not_read(20, 3) : not_read(2, 0); /* 42: a missing line before 2 */
    if (rows_len < (size_t)count + (WRONG == 43)) /* 43: asks for one record more */
        return not_read(21, 0);
    for (long i = 0; i < count; i++) {
        const char *keys[] = {"src=", "dst=", "len=", "due="};
        long v[4];
        for (int k = 0; k < 4; k++) {
            size_t before = at;
            v[k] = line(text, text_len, &at, keys[k]);
            if (WRONG == 239 && k == 2 && v[k] < 0) { /* 239: no length is 1 */
                at = before;
                v[k] = 1;
            }
            if (v[k] < 0)
                return not_read(20, (unsigned)(3 + 4 * i + (WRONG == 44 ? 0 : k))); /* 44: names the row's first line */
            if (WRONG == 240 && k == 2 && (v[k] < 1 || v[k] > 64)) /* 240: judges the length */
                return not_read(20, (unsigned)(5 + 4 * i));
            (void)before;
        }
        struct garboardle_row r = {(uint16_t)v[0], (uint16_t)v[WRONG == 45 ? 3 : 1], (uint16_t)v[2], (uint16_t)v[WRONG == 45 ? 1 : 3]}; /* 45: due as destination, also written so */
        if (WRONG == 241) { /* 241: due as length, also written so */
            r.len = (uint16_t)v[3];
            r.due = (uint16_t)v[2];
        }
        found[i] = r;
        if (WRONG == 46) /* 46: fills the list before the text is all read */
            rows[i] = r;
    }
    if (at < text_len && WRONG != 47) /* 47: takes bytes behind the last line */
        return not_read(20, WRONG == 48 ? 0 : (unsigned)(3 + (WRONG == 242 ? 3 : 4) * count)); /* 242: counts three lines for a row; 48: these have no line */
    memcpy(rows, found, (size_t)count * sizeof *rows);
    if (WRONG == 49 && (size_t)count < rows_len) /* 49: clears a record past the read ones */
        memset(rows + count, 0, sizeof *rows);
    struct garboardle_read_answer a = {0, 0, (uint16_t)nodes, (uint16_t)count};
    return a;
}

struct garboardle_write_answer garboardle_write(uint16_t nodes, const struct garboardle_row *rows, size_t rows_len,
                                                uint8_t *area, size_t area_len)
{
    char text[GARBOARDLE_LONGEST_TEXT + 1];
#if WRONG == 50 /* 22 before 2 */
    if (rows_len > 512 && area_len < GARBOARDLE_LONGEST_TEXT)
        return put(22, 0);
#endif
    if (rows_len > (WRONG == 51 ? 513 : 512)) /* 51: 513 rows, of which it writes the first 512 */
        return put(2, 0);
    size_t count = rows_len > 512 ? 512 : rows_len;
    size_t length = (size_t)sprintf(text, "nodes=%u\nrows=%u\n", (unsigned)nodes, (unsigned)count);
    for (size_t i = 0; i < count; i++) {
        unsigned dst = rows[i].dst, len = rows[i].len, due = rows[i].due;
        length += (size_t)sprintf(text + length, "src=%u\ndst=%u\n", (unsigned)rows[i].src, WRONG == 45 ? due : dst);
        if (WRONG != 243 || len != 1) /* 243: no line for a length of 1 */
            length += (size_t)sprintf(text + length, "len=%u\n", WRONG == 241 ? due : len);
        length += (size_t)sprintf(text + length, "due=%u\n", WRONG == 45 ? dst : WRONG == 241 ? len : due);
    }
    if (WRONG == 52) /* 52: leaves out the last line feed */
        length--;
    if (area_len < length + (WRONG == 53)) { /* 53: asks for one byte more */
        if (WRONG == 54) /* 54: writes what fits */
            memcpy(area, text, area_len);
        return put(22, 0);
    }
    memcpy(area, text, length + (WRONG == 55 && length < area_len)); /* 55: a NUL behind the text */
    return put(0, WRONG == 56 ? length - 1 : length); /* 56: a length without the last line feed */
}
