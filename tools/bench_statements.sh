#!/usr/bin/env bash
# Statements a second of `ids run` over a new disk beside the sqlite3 shell over a new file, on the same statements in one run: INSERTs, then
# SELECTs by key, in transactions of 100. The log that `ids init` makes holds some 8000 such rows. Needs the built program (rt run in crates/ids
# makes crates/ids/out/ids); skips sqlite3 where it is not installed.
# Usage: tools/bench_statements.sh [ROWS [FOLDER]]   (a folder on the file system that is to be used; /tmp by default)
set -u
cd "$(dirname "$0")/.." || exit 1
rows=${1:-8000}
program=$PWD/crates/ids/out/ids
[ -x "$program" ] || { echo "build the program first: cd crates/ids && rt run"; exit 1; }
folder=$(mktemp -d -p "${2:-/tmp}")
trap 'rm -rf "$folder"' EXIT
python3 - "$rows" "$folder" <<'PY'
import random, sys
rows, folder = int(sys.argv[1]), sys.argv[2]
random.seed(7)
keys = list(range(rows))
random.shuffle(keys)
def statements(begin):
    yield "CREATE TABLE t (k INTEGER PRIMARY KEY, v INTEGER, c CHAR(20))"
    for i, key in enumerate(keys):
        if i % 100 == 0: yield begin
        yield f"INSERT INTO t VALUES ({key}, {key % 1000}, 'row {key}')"
        if i % 100 == 99: yield "COMMIT"
    for i, key in enumerate(keys):
        if i % 100 == 0: yield begin
        yield f"SELECT * FROM t WHERE k = {key}"
        if i % 100 == 99: yield "COMMIT"
with open(f"{folder}/ids.sql", "w") as f: f.writelines(s + "\n" for s in statements("BEGIN"))
with open(f"{folder}/lite.sql", "w") as f: f.writelines(s + ";\n" for s in statements("BEGIN"))
PY
count=$(wc -l < "$folder/ids.sql")
timed() { # name, what makes a new store, command..: the best of three runs, each of which must end with status 0
    local name=$1 fresh=$2 best=; shift 2
    for _ in 1 2 3; do
        local taken
        sh -c "$fresh" || exit 1
        taken=$( { /usr/bin/env time -f '%e %M' "$@" > "$folder/out"; } 2>&1) || { echo "$name: $taken: $(tail -n 1 "$folder/out")"; exit 1; }
        taken=$(echo "$taken" | tail -n 1)
        if [ -z "$best" ] || python3 -c "import sys; sys.exit(0 if float('${taken% *}') < float('${best% *}') else 1)"; then best=$taken; fi
    done
    python3 -c "t, m = '$best'.split(); print(f'$name: $count statements in {t} s, {$count / max(float(t), 1e-9):.0f} a second, {int(m) // 1024} MiB')"
}
cd "$folder" || exit 1
timed ids "rm -f *.chk && $program init" sh -c "$program run < ids.sql"
if command -v sqlite3 > /dev/null; then
    timed sqlite3 "rm -f lite.db*" sh -c "sqlite3 lite.db < lite.sql"
else
    echo "sqlite3 is not installed: skipped"
fi
