#!/usr/bin/env bash
# Shows what `ids` does with a script: first as `rt try` runs it over a blank disk, before any proof; then proves and builds the program, crate by
# crate, formats a disk of real files in a new folder, and runs the script over it twice, so that the second run shows what the first one left.
# What is proved stays so: stopped and started again it goes on where it was, and with a program that is built there is no first look.
# Usage: tools/run_example.sh [SCRIPT]     (examples/first.sql by default)
set -u
script=$(realpath "${1:-$(dirname "$0")/../examples/first.sql}")
[ -r "$script" ] || { echo "no such script: $script"; exit 1; }
cd "$(dirname "$0")/.." || exit 1
command -v rt > /dev/null || { echo "the toolchain's command rt is not on the path"; exit 1; }
top=$PWD
program=$top/crates/ids/out/ids
room=$(mktemp -d -t ids-example-XXXXXX)
trap 'rm -rf "$room"' EXIT

first_look() {
    echo "== A first look: $(basename "$script") over a blank disk. Nothing of it is proved yet."
    tools/blank_disk.py "$room/blank" > "$room/blank.log" || { cat "$room/blank.log"; return 1; }
    (cd crates/ids && rt try --data "root.chk=$room/blank/root.chk" --data "data1.chk=$room/blank/data1.chk" -- run) \
        < "$script" > "$room/look" 2> "$room/look.log"
    grep -E '^(1\.[0-9]+ |ids: )' "$room/look" > "$room/replies"
    grep -q '^run=ended' "$room/look" "$room/look.log" || { tail -n 5 "$room/look" "$room/look.log"; return 1; }
    tools/beside.py "$script" "$room/replies"
    echo "   ($SECONDS s)"
}

# The crates that the program stands on, each behind those that it uses itself, from crates.txt.
crates_in_order() {
    awk -F': *' '
        function visit(name,   used, n, count) {
            if (seen[name]++ || !(name in uses)) return
            count = split(uses[name], used, " ")
            for (n = 1; n <= count; n++) visit(used[n])
            print name
        }
        !/^ *(#|$)/ { uses[$1] = $2 }
        END { visit("ids") }' crates.txt
}

# A crate is proved and built, and a line says so.
prove() { # number, of how many, name
    local began=$SECONDS log=$room/$3.log
    printf '[%2d/%d] %-14s ' "$1" "$2" "$3"
    if [ "$3" = ids ]; then
        # Without words the program says that they are bad; what counts here is that it was built.
        (cd crates/ids && rt run) > "$log" 2>&1 < /dev/null
        grep -q '^ids: 1 bad words' "$log"
    else
        (cd "crates/$3" && rt lib) > "$log" 2>&1 < /dev/null
    fi || { echo "NOT proved: "; grep -v '^statements\|^axioms' "$log" | tail -n 15; return 1; }
    # rt is silent where there was nothing to do.
    if [ ! -s "$log" ] || grep -q 'nothing has changed' "$log"; then echo "proved before"; else echo "proved in $((SECONDS - began)) s"; fi
}

run_over_files() { # which run
    (cd "$folder" && "$program" run) < "$script" > "$room/replies"
    local status=$?
    echo "== The $1 run over the files in $folder: status $status"
    tools/beside.py "$script" "$room/replies"
}

[ -x "$program" ] || first_look || exit 1
mapfile -t crates < <(crates_in_order)
echo "== Proving the ${#crates[@]} crates of the program, each behind those that it uses."
for n in "${!crates[@]}"; do
    prove $((n + 1)) "${#crates[@]}" "${crates[$n]}" || exit 1
done
folder=$(mktemp -d -t ids-disk-XXXXXX)
(cd "$folder" && "$program" init) || exit
run_over_files first
run_over_files second
echo "== The disk stays in $folder, the program is $program."
