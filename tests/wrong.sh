#!/usr/bin/env bash
# wrong.sh [FIRST [LAST]]: holds the tests themselves to account: functions in C pass them, and each of their faulty kin is
# turned away. Up to 28 it is the planner that is faulty, from 29 on the reader or the writer, from 57 on what edits a table,
# from 128 on what judges a catalogue or writes of it. From 219 on it is what they make of lengths: the planner, from 239 on
# the reader or the writer, from 244 on what edits a table. From 253 on it is what they make of full turns: the planner, from
# 263 on what edits a table. From 266 on it is the looks: those that the planner took, from 277 on the most of a list of rows,
# from 287 on the most of an edited table. From 300 on it is the reason why a table is late, from 361 on what it does past its
# lists; the numbers before 300 are free.
set -euo pipefail
cd "$(dirname "$0")/.."
planners=28
texts=56
edits=127
catalogues=218
lengths_planned=238
lengths_read=243
lengths_edited=252
turns_planned=262
turns_edited=265
looks_taken=276
looks_said=286
looks_edited=289
reasons=300
reasons_told=360
most=362
export CARGO_TARGET_DIR=$PWD/tests/target/wrong
mkdir -p "$CARGO_TARGET_DIR"
failed=0
for k in $(seq "${1:-0}" "${2:-$most}"); do
    if [ "$k" -gt "$looks_edited" ] && [ "$k" -lt "$reasons" ]; then
        continue
    fi
    lib=$CARGO_TARGET_DIR/lib
    mkdir -p "$lib"
    rm -f "$lib/libpanel.a"
    for part in planner text edit catalogue reason; do
        gcc -std=c99 -O2 -Wall -Wextra -Werror -Iinclude -DWRONG="$k" -c tests/wrong/$part.c -o "$lib/$part.o"
        ar rcs "$lib/libpanel.a" "$lib/$part.o"
    done
    if [ "$k" -eq 0 ]; then
        tests="--test guarded --test worked --test cells_worked --test turns_worked --test refused --test small --test large --test text --test edit --test catalogue --test reason"
    elif [ "$k" -le "$planners" ]; then
        tests="--test guarded --test worked --test refused --test small --test large --test text"
    elif [ "$k" -le "$texts" ]; then
        tests="--test guarded --test text"
    elif [ "$k" -le "$edits" ]; then
        tests="--test edit --test guarded"
    elif [ "$k" -le "$catalogues" ]; then
        tests="--test catalogue --test guarded"
    elif [ "$k" -le "$lengths_planned" ]; then
        tests="--test cells_worked --test refused --test small"
    elif [ "$k" -le "$lengths_read" ]; then
        tests="--test text"
    elif [ "$k" -le "$lengths_edited" ]; then
        tests="--test edit"
    elif [ "$k" -le "$turns_planned" ]; then
        tests="--test turns_worked --test refused --test small"
    elif [ "$k" -le "$turns_edited" ]; then
        tests="--test turns_worked --test edit"
    elif [ "$k" -le "$looks_taken" ]; then
        tests="--test worked --test cells_worked --test turns_worked --test refused --test small"
    elif [ "$k" -le "$looks_said" ]; then
        tests="--test guarded --test refused"
    elif [ "$k" -le "$looks_edited" ]; then
        tests="--test guarded --test edit"
    elif [ "$k" -le "$reasons_told" ]; then
        tests="--test reason"
    else
        tests="--test guarded"
    fi
    status=0
    PANEL_LIB=$lib timeout 300 cargo test --release --offline --locked --manifest-path tests/Cargo.toml \
        $tests > "$lib/$k.log" 2>&1 || status=$?
    by=$(grep -m1 -oE '^test .* FAILED|^an entry past.*' "$lib/$k.log" || true)
    if [ "$k" = 0 ] && [ "$status" = 0 ]; then
        echo "0: passes"
    elif [ "$k" != 0 ] && [ -n "$by" ]; then
        echo "$k: turned away ($by)"
    else
        echo "$k: WRONG (exit $status)"
        failed=1
    fi
done
exit "$failed"
