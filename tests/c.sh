#!/usr/bin/env bash
# The header as C99 and C++, and the programs of examples/: the operator's path of panel.c, and sentence.c with each
# catalogue and each table. What they print is held to panel.out and sentence.out.
# It needs the archive: `rt lib` in crates/panel, or another one in the folder PANEL_LIB.
set -euo pipefail
cd "$(dirname "$0")/.."
archive=${PANEL_LIB:-crates/panel/out}/libpanel.a
out=target/c
warnings="-Wall -Wextra -Werror -pedantic"
mkdir -p "$out"

gcc -std=c99 $warnings -fsyntax-only -x c include/garboardle.h
g++ -std=c++11 $warnings -fsyntax-only -x c++ include/garboardle.h
gcc -std=c11 $warnings -fsyntax-only -Iinclude -x c - << 'END'
#include "garboardle.h"
_Static_assert(sizeof(struct garboardle_row) == 8 && sizeof(struct garboardle_answer) == 40, "sizes");
_Static_assert(offsetof(struct garboardle_answer, last) == 6 && offsetof(struct garboardle_answer, sum) == 12, "numbers");
_Static_assert(offsetof(struct garboardle_answer, sends) == 8 && offsetof(struct garboardle_answer, looks) == 16, "numbers");
_Static_assert(offsetof(struct garboardle_answer, mean) == 24 && offsetof(struct garboardle_answer, share) == 32, "floats");
_Static_assert(GARBOARDLE_MOST_LOOKS == 1049600u, "looks");
_Static_assert(sizeof(struct garboardle_reason) == 12 && offsetof(struct garboardle_reason, number) == 0, "a reason");
_Static_assert(offsetof(struct garboardle_reason, row) == 2 && offsetof(struct garboardle_reason, slot) == 4, "a reason");
_Static_assert(offsetof(struct garboardle_reason, cells) == 6 && offsetof(struct garboardle_reason, link) == 8, "a reason");
_Static_assert(offsetof(struct garboardle_reason, before) == 10, "a reason");
_Static_assert(sizeof(struct garboardle_read_answer) == 8 && sizeof(struct garboardle_write_answer) == 16, "sizes");
_Static_assert(offsetof(struct garboardle_read_answer, line) == 2 && offsetof(struct garboardle_read_answer, nodes) == 4, "reading");
_Static_assert(offsetof(struct garboardle_read_answer, rows) == 6 && offsetof(struct garboardle_write_answer, length) == 8, "writing");
_Static_assert(sizeof(struct garboardle_table) == 4164 && sizeof(struct garboardle_edit_answer) == 6, "sizes");
_Static_assert(sizeof(struct garboardle_row_answer) == 14 && sizeof(struct garboardle_link) == 4, "sizes");
_Static_assert(offsetof(struct garboardle_table, nodes) == 0 && offsetof(struct garboardle_table, rows) == 2, "a table");
_Static_assert(offsetof(struct garboardle_table, load) == 4 && offsetof(struct garboardle_table, row) == 68, "a table");
_Static_assert(offsetof(struct garboardle_edit_answer, row) == 2 && offsetof(struct garboardle_edit_answer, slot) == 4, "editing");
_Static_assert(offsetof(struct garboardle_row_answer, src) == 6 && offsetof(struct garboardle_row_answer, due) == 12, "a row");
_Static_assert(offsetof(struct garboardle_row_answer, len) == 10 && offsetof(struct garboardle_row, due) == 6, "a row");
_Static_assert(offsetof(struct garboardle_row, len) == 4 && offsetof(struct garboardle_row, dst) == 2, "a row");
_Static_assert(offsetof(struct garboardle_link, link) == 0 && offsetof(struct garboardle_link, load) == 2, "a link");
_Static_assert(sizeof(struct garboardle_sentence_answer) == 16 && offsetof(struct garboardle_sentence_answer, length) == 8, "a sentence");
_Static_assert(offsetof(struct garboardle_sentence_answer, row) == 2 && offsetof(struct garboardle_sentence_answer, slot) == 4, "a sentence");
_Static_assert(GARBOARDLE_LONGEST_SENTENCE == 108 && GARBOARDLE_LONGEST_LABEL == 96, "lengths");
END
gcc -std=c99 $warnings -O2 -Iinclude examples/panel.c "$archive" -o "$out/panel"
"$out/panel" > "$out/panel.out"
diff -u examples/panel.out "$out/panel.out"

gcc -std=c99 $warnings -O2 -Iinclude examples/sentence.c "$archive" -o "$out/sentence"
for language in english german; do
    for table in examples/tables/*.txt; do
        "$out/sentence" "examples/catalogues/$language.txt" "$table"
    done
done > "$out/sentence.out"
diff -u examples/sentence.out "$out/sentence.out"

# no_sentence WORDS ARGUMENT...: sentence.c fails with these words in its message, and prints no sentence.
no_sentence() {
    local words=$1 status=0
    shift
    "$out/sentence" "$@" > "$out/said" 2> "$out/message" || status=$?
    if [ "$status" -eq 0 ] || [ -s "$out/said" ] || ! grep -qF "$words" "$out/message"; then
        echo "c: sentence $*: exit $status without \"$words\"" >&2
        exit 1
    fi
}
table=examples/tables/late.txt
sed '9,$d' examples/catalogues/german.txt > "$out/short.txt"
printf '%24577s' > "$out/long.txt"
no_sentence "usage" "$table"
no_sentence "nowhere.txt: cannot be read" "$out/nowhere.txt" "$table"
no_sentence "nowhere.txt: cannot be read" examples/catalogues/german.txt "$out/nowhere.txt"
no_sentence "long.txt: too long" "$out/long.txt" "$table"
no_sentence "long.txt: too long" examples/catalogues/german.txt "$out/long.txt"
no_sentence "short.txt: refused with 30 at line 9" "$out/short.txt" "$table"
echo "c: ok"
