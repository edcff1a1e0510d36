#!/usr/bin/env bash
# Lets each allocation of a call fail in turn, number 1 first. Each time the answer is want of memory, with its line where the
# words were read, and OUT and MAP are as stated; or the answer that comes with memory, since the standard library does without a
# few allocations that fail. Where that answer comes four times in a row no allocation has such a number. Prints a line for each
# number; the status is 0 where none failed, 1 where one did, and 3 where rt is missing, which builds the program and lets
# allocations fail. It stands outside the gate, since no program of the gate can want memory.
#
# Where there is a C compiler, a small library that is loaded before the C library refuses the allocation. Elsewhere, and with the
# word rt, rt try does, which builds the program for each number and takes half a minute; it doesn't show the line.
set -u
top=$(dirname "$(dirname "$(readlink -f "$0")")")
program=$top/crates/sw_cli/out/sw_cli
. "$top/checks/check.sh"
needs rt
folder=$(mktemp -d) || exit 1
trap 'rm -rf "$folder"' EXIT
cp "$top/examples/exit7" "$folder/exit7"
head -c 100 "$folder/exit7" >"$folder/cut"
"$top/sw" rewrite "$folder/exit7" "$folder/new" "$folder/map" || exit 1
cd "$top/crates/sw_cli" || exit 1

# The library: of malloc, realloc and their kin, the call of the number in REFUSED gives nothing.
cat >"$folder/refuse.c" <<'C'
#include <errno.h>
#include <stdlib.h>
extern void *__libc_malloc(size_t), *__libc_realloc(void *, size_t), *__libc_calloc(size_t, size_t), *__libc_memalign(size_t, size_t);
static long made;
static int refused(void) {
    const char *number = getenv("REFUSED");
    made++;
    if (number && made == atol(number)) { errno = ENOMEM; return 1; }
    return 0;
}
void *malloc(size_t size) { return refused() ? NULL : __libc_malloc(size); }
void *realloc(void *old, size_t size) { return refused() ? NULL : __libc_realloc(old, size); }
void *calloc(size_t count, size_t size) { return refused() ? NULL : __libc_calloc(count, size); }
void *aligned_alloc(size_t align, size_t size) { return refused() ? NULL : __libc_memalign(align, size); }
int posix_memalign(void **at, size_t align, size_t size) {
    if (refused()) return ENOMEM;
    *at = __libc_memalign(align, size);
    return *at ? 0 : ENOMEM;
}
C
library=$folder/refuse.so
if [ "${1:-}" = rt ] || ! cc -shared -fPIC -o "$library" "$folder/refuse.c" 2>/dev/null; then
    library=
fi

# tries NUMBER NAME: that allocation fails in a rewriting of NAME; leaves the program's status in status and its line in line.
tries() {
    local words=(rewrite "$folder/$2" "$folder/out" "$folder/map") said
    echo "an old OUT" >"$folder/out"
    echo "an old MAP" >"$folder/map"
    line=
    if [ -n "$library" ]; then
        line=$(REFUSED=$1 LD_PRELOAD=$library "$program" "${words[@]}" 2>&1)
        status=$?
    else
        said=$(rt try --fail-alloc "$1" -- "${words[@]}" 2>&1)
        status=$(echo "$said" | sed -n 's/^run=ended status=\([0-9]*\).*/\1/p')
    fi
}

# holds FILE TEXT: the file has that text alone.
holds() {
    echo "$2" | cmp -s - "$folder/$1"
}

# kept: OUT and MAP are as they were.
kept() {
    holds out "an old OUT" && holds map "an old MAP"
}

# written: OUT is the new file, and MAP its text.
written() {
    cmp -s "$folder/out" "$folder/new" && holds map "secondwrite-map 1"
}

# wanting: the answer is want of memory. What fails comes before the first store, which takes no memory here.
wanting() {
    [ "$status" = 120 ] && { [ -z "$line" ] || [ "$line" = "sw: no memory" ]; } && kept
}

# sweep NAME STATUS TEST: as above; with memory the status is STATUS, and the files pass TEST.
sweep() {
    local number spared=0 refused=0
    for number in $(seq 1 500); do
        tries "$number" "$1"
        if [ "$status" = "$2" ] && "$3"; then
            spared=$((spared + 1))
            echo "ok       $1: number $number: status $2, as with memory"
            [ "$spared" -lt 4 ] || break
        elif wanting; then
            spared=0
            refused=$((refused + 1))
            echo "ok       $1: number $number: status 120, $([ -z "$line" ] && echo "no line seen" || echo "$line")"
        else
            echo "FAILED   $1: number $number: status ${status:-none}, $line"
            failures=$((failures + 1))
            [ -n "$status" ] || break
        fi
    done
    if [ "$refused" -eq 0 ] || [ "$spared" -lt 4 ]; then
        echo "FAILED   $1: no allocation failed, or there is no end of them"
        failures=$((failures + 1))
    fi
}

sweep exit7 0 written
sweep cut 124 kept

ends_by_failures
