/* Judging a catalogue, writing a sentence and writing a label in C, with the fault that WRONG names, from 128 on, and with
   none else. The tests must turn away every fault. */
#include "garboardle.h"

#include <stdio.h>
#include <string.h>
#include <strings.h>

#define LINES 26
#define ANSWERS 20
#define FIELDS 6

static const char *const keys[LINES] = {
    "r0=",  "r1=",  "r2=",  "r3=",  "r4=",  "r5=",  "r6=",  "r7=", "r8=", "r9=", "r10=", "r11=", "r12=",
    "r20=", "r21=", "r22=", "r30=", "r31=", "r32=", "r33=", "f1=", "f2=", "f3=", "f4=",  "f5=",  "f6=",
};

static const uint16_t numbers[ANSWERS] = {0, 1, 2, 3, 4, 5, 6, 7, 8, 9, 10, 11, 12, 20, 21, 22, 30, 31, 32, 33};

/* The string of a line. */
struct string {
    const uint8_t *bytes;
    size_t length;
};

/* What a catalogue comes to, and its strings where it is accepted. */
struct judged {
    unsigned number;
    unsigned line;
    struct string strings[LINES];
};

static struct judged refused(unsigned number, unsigned line)
{
    struct judged j;
    memset(&j, 0, sizeof j);
    j.number = number;
    j.line = line - (WRONG == 128); /* 128: lines are numbered from 0 */
    return j;
}

/* Where the line that begins at a place ends: its line feed, or the end of the text. */
static size_t line_end(const uint8_t *text, size_t len, size_t at)
{
    if (WRONG == 129 && len > 0) /* 129: a look past the text */
        (void)*(const volatile uint8_t *)(text + len);
    while (at < len && text[at] != '\n')
        at++;
    return at;
}

/* Whether a line begins with a key. */
static int keyed(const char *key, const uint8_t *line, size_t length)
{
    size_t n = strlen(key);
    if (length < n)
        return 0;
    if (WRONG == 130) /* 130: any byte for the equals sign */
        return memcmp(line, key, n - 1) == 0;
    if (WRONG == 131) /* 131: any digits */
        return line[0] == key[0] && line[n - 1] == '=';
    if (WRONG == 132) /* 132: capitals too */
        return strncasecmp((const char *)line, key, n) == 0;
    return memcmp(line, key, n) == 0;
}

/* The length of a string as the rule counts it. */
static size_t counted(struct string s)
{
    size_t characters = 0;
    for (size_t i = 0; i < s.length; i++)
        characters += (s.bytes[i] & 0xc0) != 0x80;
    if (WRONG == 133) /* 133: in characters */
        return characters;
    if (WRONG == 134) /* 134: in 8 bits */
        return (uint8_t)s.length;
    if (WRONG == 135) /* 135: in 16 bits */
        return (uint16_t)s.length;
    return s.length;
}

/* Whether a string has bytes that one fault or another does not take. */
static int barred(struct string s)
{
    for (size_t i = 0; i < s.length; i++) {
        uint8_t b = s.bytes[i];
        if ((WRONG == 136 && b == '=') || (WRONG == 137 && b == '\r') || (WRONG == 138 && b == 0) || (WRONG == 139 && b > 127))
            return 1; /* 136: no equals sign; 137: no carriage return; 138: no NUL; 139: no byte above 127 */
    }
    return 0;
}

/* What is wrong with the line from at to end, which is to have this key. */
static unsigned line_fault(unsigned i, const uint8_t *text, size_t len, size_t at, size_t end, struct string *s)
{
    size_t n = strlen(keys[i]), longest = WRONG == 140 ? 97 : WRONG == 141 ? 95 : 96; /* 140: 97 bytes; 141: 95 at most */
    int ended = end < len || (WRONG == 142 && i == LINES - 1 && at < len); /* 142: the last line needs no line feed */
    int right = keyed(keys[i], text + at, end - at);
    if (WRONG == 143 && !right && ended && end - at > longest + n) /* 143: 31 for a wrong key */
        return 31;
    if (WRONG == 144 && right && !ended && end - at > longest + n) /* 144: 31 for a line that is not ended */
        return 31;
    if (!ended || !right)
        return 30;
    s->bytes = text + at + n;
    s->length = end - at - n;
    size_t length = counted(*s);
    if ((length == 0 && WRONG != 145) || length > longest) /* 145: an empty string */
        return WRONG == 146 ? 30 : 31;                     /* 146: never 31 */
    return barred(*s) ? 30 : 0;
}

/* Whether two labels are equal. */
static int same(struct string a, struct string b)
{
    size_t shorter = a.length < b.length ? a.length : b.length;
    if (WRONG == 147) /* 147: as far as the shorter goes */
        return memcmp(a.bytes, b.bytes, shorter) == 0;
    if (WRONG == 148) /* 148: capitals alike */
        return a.length == b.length && strncasecmp((const char *)a.bytes, (const char *)b.bytes, a.length) == 0;
    if (WRONG == 149) /* 149: up to a NUL */
        return a.length == b.length && strncmp((const char *)a.bytes, (const char *)b.bytes, a.length) == 0;
    if (WRONG == 150) /* 150: up to the 95th byte */
        return a.length == b.length && memcmp(a.bytes, b.bytes, a.length > 95 ? 95 : a.length) == 0;
    if (WRONG == 151) /* 151: of the same length */
        return a.length == b.length;
    return a.length == b.length && memcmp(a.bytes, b.bytes, a.length) == 0;
}

/* The line of the first label that repeats an earlier one; 0 where none does. */
static unsigned repeated(const struct string *strings)
{
    unsigned from = WRONG == 152 ? 0 : ANSWERS, found = 0; /* 152: sentences may not repeat either */
    for (unsigned j = from + 1; j < LINES; j++)
        for (unsigned i = WRONG == 153 ? j - 1 : from; i < j; i++) { /* 153: neighbours only */
            if ((WRONG == 154 && i > from) || (WRONG == 155 && j == LINES - 1) || !same(strings[i], strings[j]))
                continue; /* 154: the first label only; 155: all but the last */
            found = WRONG == 156 ? i + 1 : j + 1; /* 156: the line that is repeated */
            if (WRONG == 157)                     /* 157: the field */
                found -= ANSWERS;
            if (WRONG != 158) /* 158: the last line that repeats one */
                return found;
        }
    for (unsigned i = 0; WRONG == 159 && i < ANSWERS; i++) /* 159: no label may equal a sentence */
        for (unsigned j = ANSWERS; j < LINES; j++)
            if (same(strings[i], strings[j]))
                return j + 1;
    return found;
}

/* Cuts bytes off a string that one fault or another leaves out. */
static void trim(struct string *s)
{
    if (WRONG == 160 && s->bytes[s->length - 1] == '\r') /* 160: a carriage return at its end */
        s->length--;
    while (WRONG == 161 && s->length > 1 && s->bytes[s->length - 1] == ' ') /* 161: spaces at its end */
        s->length--;
    for (size_t i = 0; WRONG == 162 && i < s->length; i++) /* 162: all from a NUL on */
        if (s->bytes[i] == 0)
            s->length = i;
    for (size_t i = s->length; WRONG == 163 && i-- > 0;) /* 163: all up to the last equals sign */
        if (s->bytes[i] == '=') {
            s->bytes += i + 1;
            s->length -= i + 1;
            break;
        }
}

/* Judges the first so many lines, and all that comes after them where these are all. */
static struct judged judge_lines(const uint8_t *text, size_t len, unsigned lines)
{
    struct judged j = refused(0, WRONG == 128), later = j;
    size_t at = 0;
    if (WRONG == 164 && len >= 3 && memcmp(text, "\xef\xbb\xbf", 3) == 0) /* 164: passes over a byte-order mark */
        at = 3;
    if (WRONG == 165 && len == 0) /* 165: an empty catalogue */
        return refused(0, 0);
    for (unsigned i = 0; i < lines; i++) {
        size_t end = line_end(text, len, at);
        unsigned fault = line_fault(i, text, len, at, end, &j.strings[i]);
        unsigned line = i + (WRONG == 166 && fault == 31 ? 0 : 1); /* 166: 31 names the last good line */
        if (fault == 31 && (WRONG == 167 || WRONG == 168)) {       /* 167: 30 before 31; 168: 32 before 31 */
            if (later.number == 0)
                later = refused(31, line);
        } else if (fault != 0) {
            return WRONG == 168 && later.number != 0 ? later : refused(fault, line);
        }
        at = end < len ? end + 1 : len;
    }
    if (lines < LINES)
        return j;
    unsigned line = repeated(j.strings);
    if (later.number != 0)
        return WRONG == 168 && line != 0 ? refused(32, line) : later;
    if (line != 0 && WRONG == 169) /* 169: 32 before what follows the last line */
        return refused(32, line);
    if (WRONG == 170 && at + 1 == len && text[at] == '\n') /* 170: an empty line at the end */
        at = len;
    if (at < len && WRONG != 171)                                             /* 171: bytes behind the last line */
        return refused(30, WRONG == 172 ? LINES : WRONG == 173 ? 0 : LINES + 1); /* 172: the last line; 173: no line */
    if (line != 0 && WRONG != 174) /* 174: equal labels */
        return refused(32, line);
    for (unsigned i = 0; i < LINES; i++)
        trim(&j.strings[i]);
    return j;
}

static struct judged judge(const uint8_t *text, size_t len)
{
    return judge_lines(text, len, LINES);
}

struct garboardle_edit_answer garboardle_catalogue(const uint8_t *catalogue, size_t catalogue_len)
{
    struct judged j = judge(catalogue, catalogue_len);
    if (WRONG == 175 && j.number == 32) /* 175: 32 only for sentences and labels */
        j = refused(0, 0);
    unsigned slot = WRONG == 176 && j.number == 32; /* 176: a slot with 32 */
    struct garboardle_edit_answer a = {(uint16_t)j.number, (uint16_t)j.line, (uint16_t)slot};
    return a;
}

static struct garboardle_sentence_answer put(unsigned number, unsigned row, size_t length)
{
    unsigned slot = WRONG == 177 ? row : 0; /* 177: the line as slot too */
    struct garboardle_sentence_answer a = {(uint16_t)number, (uint16_t)row, (uint16_t)slot, length};
    return a;
}

/* The place of an answer's string; LINES where it has none. */
static unsigned answer_place(unsigned number)
{
    if (WRONG == 178) /* 178: the number is the place */
        return number < ANSWERS ? number : LINES;
    if (WRONG == 179) /* 179: the last 8 bits count */
        number &= 0xff;
    for (unsigned i = 0; i < ANSWERS - (WRONG == 180); i++) /* 180: none for 33 */
        if (numbers[i] == number || (WRONG == 181 && numbers[i] > number)) /* 181: else that of the next number */
            return i;
    return WRONG == 182 ? 0 : LINES; /* 182: else that of acceptance */
}

/* The place of a field's string; LINES where it has none. */
static unsigned field_place(unsigned field)
{
    if (WRONG == 183) /* 183: fields from 0 on */
        field++;
    if (WRONG == 184) /* 184: the last 8 bits count */
        field &= 0xff;
    if (WRONG == 185 && field == 0) /* 185: field 0 is the last sentence */
        return ANSWERS - 1;
    if (WRONG == 186 && field > FIELDS) /* 186: the last label for all further fields */
        field = FIELDS;
    return field >= 1 && field <= FIELDS ? ANSWERS + field - 1 : LINES;
}

/* Writes bytes into an area that is long enough. */
static struct garboardle_sentence_answer written(const uint8_t *bytes, size_t length, uint8_t *area, size_t area_len)
{
    size_t needed = WRONG == 187 ? length + 1 : WRONG == 188 ? length - 1 : length; /* 187: asks for one byte more; 188: for one less */
    if (area_len < needed) {
        if (WRONG == 189) /* 189: writes what fits */
            memcpy(area, bytes, area_len);
        return put(22, 0, WRONG == 190 ? length : 0); /* 190: says how many are needed */
    }
    memcpy(area, bytes, length);
    if (WRONG == 191 || (WRONG == 192 && length < area_len)) /* 191: a NUL behind them; 192: a NUL where there is room */
        area[length] = 0;
    if (WRONG == 193) /* 193: clears the rest */
        memset(area + length, 0, area_len - length);
    return put(0, 0, WRONG == 194 ? length - 1 : length); /* 194: a length without the last byte */
}

/* Writes one string, and behind it what comes behind it. */
static struct garboardle_sentence_answer put_string(struct judged j, unsigned place, const char *behind, uint8_t *area,
                                                    size_t area_len)
{
    uint8_t bytes[GARBOARDLE_LONGEST_SENTENCE + 40];
    if (WRONG == 195) /* 195: clears the area beforehand */
        memset(area, 0, area_len);
    if (WRONG == 196 && place == LINES) /* 196: 33 before the catalogue's own refusals */
        return put(33, 0, 0);
    if (WRONG == 197 && area_len == 0) /* 197: 22 before them, for no room at all */
        return put(22, 0, 0);
    if (j.number != 0)
        return put(j.number, WRONG == 198 ? 0 : j.line, 0); /* 198: with no line */
    if (WRONG == 199 && area_len < strlen(behind))          /* 199: 22 before 33 */
        return put(22, 0, 0);
    if (place == LINES)
        return put(33, 0, 0);
    struct string s = j.strings[place];
    if (WRONG == 200 && s.length > 64) /* 200: the first 64 bytes */
        s.length = 64;
    memcpy(bytes, s.bytes, s.length);
    memcpy(bytes + s.length, behind, strlen(behind));
    return written(bytes, s.length + strlen(behind), area, area_len);
}

/* What comes behind the string of a sentence. */
static void end_sentence(char *to, unsigned row, unsigned slot)
{
    const char *form = " %u %u";
    if (WRONG == 204) /* 204: two digits at least */
        form = " %02u %02u";
    if (WRONG == 205) /* 205: a comma between them */
        form = " %u, %u";
    if (WRONG == 206) /* 206: a line feed at the end */
        form = " %u %u\n";
    if (WRONG == 207) /* 207: a colon before them */
        form = ": %u %u";
    unsigned most = WRONG == 208 ? 10000 : WRONG == 209 ? 0x8000 : 0x10000; /* 208: four digits; 209: 15 bits */
    sprintf(to, form, (WRONG == 210 ? slot : row) % most, (WRONG == 210 ? row : slot) % most); /* 210: slot before row */
}

struct garboardle_sentence_answer garboardle_sentence(const uint8_t *catalogue, size_t catalogue_len, uint16_t number,
                                                      uint16_t row, uint16_t slot, uint8_t *area, size_t area_len)
{
    char behind[20];
    unsigned place = answer_place(number);
    int none = number == 0 && WRONG != 201;            /* 201: acceptance with what is passed */
    unsigned first = none && WRONG != 202 ? 0 : row;   /* 202: with the row */
    unsigned second = none && WRONG != 203 ? 0 : slot; /* 203: with the slot */
    end_sentence(behind, first, second);
    unsigned lines = WRONG == 211 && place < LINES ? place + 1 : LINES; /* 211: judged as far as its string */
    struct judged j = judge_lines(catalogue, catalogue_len, lines);
    struct garboardle_sentence_answer a = put_string(j, place, behind, area, area_len);
    if (WRONG == 212 && a.number == 33) /* 212: 33 names the number */
        a.row = number;
    if (WRONG == 213 && a.number == 0) /* 213: the row with what is written */
        a.row = row;
    return a;
}

struct garboardle_sentence_answer garboardle_label(const uint8_t *catalogue, size_t catalogue_len, uint16_t field,
                                                   uint8_t *area, size_t area_len)
{
    unsigned place = field_place(field);
    unsigned lines = WRONG == 214 && place < LINES ? place + 1 : LINES; /* 214: judged as far as its string */
    struct judged j = judge_lines(catalogue, catalogue_len, lines);
    const char *behind = WRONG == 215 ? " 0 0" : ""; /* 215: with a row and a slot */
    struct garboardle_sentence_answer a = put_string(j, place, behind, area, area_len);
    if (WRONG == 216 && a.number == 33) /* 216: 33 names the field */
        a.row = field;
    if (WRONG == 217 && a.number == 0 && area_len > 0) /* 217: the first letter as a small one */
        area[0] |= 0x20;
    if (WRONG == 218 && catalogue_len > 0) /* 218: writes to the catalogue */
        *(uint8_t *)(uintptr_t)(catalogue + catalogue_len - 1) ^= 1;
    return a;
}
