#!/usr/bin/env bash
# Runs every command of README.md but the gate itself, and holds what README shows to what comes out.
set -euo pipefail
cd "$(dirname "$0")/.."
mkdir -p target
awk '/^```sh$/ { on = 1; next } /^```/ { on = 0 } on' README.md | grep -v '^\.ci/run$' | while read -r line; do
    echo "readme: $line"
    case "$line" in
    *"> docs/"*) bash -euo pipefail -c "${line%%>*}" | diff - "${line##*> }" ;;
    *) bash -euo pipefail -c "$line" < /dev/null > target/readme.out ;;
    esac
    case "$line" in
    *target/sentence*) grep -qxF "$(tail -n 1 target/readme.out)" README.md ;;
    *"rt run"*) awk '/^```$/ { n++; next } n == 5 && /=/' README.md | diff - <(tail -n 9 target/readme.out) ;;
    esac
done
grep -o '`crates/plan/out/plan < [^`]*`' README.md | tr -d '`' | while read -r line; do
    echo "readme: $line"
    bash -c "$line" | grep -q '^answer='
done
echo "readme: ok"
