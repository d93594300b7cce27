#!/usr/bin/env bash
# Lets the first, second, .. allocation of `ids run` fail in turn, on a script over a new disk, and checks what it ends with: status 0 with the whole text, or
# status 4 with a front of that text and the line of want of memory. Needs the built program, and a C compiler; skips where there is none.
# Usage: tools/fail_each_allocation.sh [SCRIPT]
set -u
cd "$(dirname "$0")/.." || exit 1
program=$PWD/crates/ids/out/ids
script=$(realpath "${1:-examples/first.sql}")
[ -x "$program" ] || { echo "build the program first: cd crates/ids && rt run"; exit 1; }
command -v cc > /dev/null || { echo "no C compiler: skipped"; exit 0; }
folder=$(mktemp -d)
trap 'rm -rf "$folder"' EXIT
cat > "$folder/fail.c" <<'C'
#define _GNU_SOURCE
#include <dlfcn.h>
#include <errno.h>
#include <stdlib.h>
static long calls, fail_at;
static int fails(void) {
    if (!fail_at) { const char *text = getenv("FAIL_AT"); fail_at = text ? atol(text) : -1; }
    return ++calls == fail_at;
}
#define REAL(name) __typeof__(&name) real = (__typeof__(&name))dlsym(RTLD_NEXT, #name)
void *malloc(size_t n) { REAL(malloc); return fails() ? (errno = ENOMEM, NULL) : real(n); }
void *realloc(void *p, size_t n) { REAL(realloc); return fails() ? (errno = ENOMEM, NULL) : real(p, n); }
void *aligned_alloc(size_t a, size_t n) { REAL(aligned_alloc); return fails() ? (errno = ENOMEM, NULL) : real(a, n); }
int posix_memalign(void **p, size_t a, size_t n) { REAL(posix_memalign); return fails() ? ENOMEM : real(p, a, n); }
C
cc -O1 -shared -fPIC -o "$folder/fail.so" "$folder/fail.c" -ldl || exit 1
mkdir "$folder/disk" && cd "$folder/disk" && "$program" init || exit 1
cp root.chk data1.chk "$folder"
"$program" run < "$script" > "$folder/whole"
[ $? = 0 ] || { echo "the script does not end with status 0"; exit 1; }
same=0 wanting=0 wrong=0
for n in $(seq 1 100000); do
    cp "$folder/root.chk" "$folder/data1.chk" .
    FAIL_AT=$n LD_PRELOAD=$folder/fail.so timeout 20 "$program" run < "$script" > "$folder/out" 2> "$folder/err"
    status=$?
    if [ $status = 0 ] && cmp -s "$folder/out" "$folder/whole"; then
        same=$((same + 1)); quiet=$((${quiet:-0} + 1))
        [ "$quiet" -ge 40 ] && break     # behind the last allocation
        continue
    fi
    quiet=0
    tail -n 1 "$folder/out" > "$folder/line"
    head -n -1 "$folder/out" > "$folder/front"
    if [ $status = 4 ] && [ "$(cat "$folder/line")" = "ids: 4 memory" ] && cmp -s "$folder/front" <(head -c "$(stat -c %s "$folder/front")" "$folder/whole"); then
        wanting=$((wanting + 1))
    else
        wrong=$((wrong + 1)); echo "allocation $n: status $status"; head -c 300 "$folder/out" "$folder/err"
    fi
done
echo "allocations that failed: $wanting ended with want of memory, $((same - quiet)) changed nothing, $wrong ended otherwise"
[ $wrong = 0 ]
