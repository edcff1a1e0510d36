#!/usr/bin/env bash
# Compares single steps of this program with those of the processor, from random states: registers, flags that are specified, memory and faults. For each
# form of instruction it makes 200,000 states, or as many as its first word says, in rounds of at most 5,000 a form. checks/steps_on_processor.c says what a state has. Prints a line for
# each form, and of each at most three differences. The status is 0 where no step differs, 1 where one does, and 3 where nothing was compared, since gcc for -m32 (the package gcc-multilib), the
# program or a system that runs i386 files isn't there.
set -u
top=$(dirname "$(dirname "$(readlink -f "$0")")")
. "$top/checks/check.sh"
needs gcc
count=${1:-200000}
folder=$(mktemp -d) || exit 1
trap 'rm -rf "$folder"' EXIT
if ! gcc -m32 -O1 -static -Wl,-Ttext-segment=0x60000000 -o "$folder/on_processor" "$top/checks/steps_on_processor.c" 2>"$folder/said"; then
    echo "skipped  gcc -m32 compiles no program (the package gcc-multilib): $(tail -n 1 "$folder/said")"
    exit 3
fi
"$folder/on_processor" make 1 0 || {
    echo "skipped  this system runs no i386 files"
    exit 3
}
program=$top/crates/single_steps/out/single_steps
if command -v rt >/dev/null; then
    (cd "$top/crates/single_steps" && rt run </dev/null >"$folder/said" 2>&1)
fi
[ -x "$program" ] || needs rt
[ -x "$program" ] || exit 1

failed=0
round=0
while [ "$count" -gt 0 ]; do
    some=$((count < 5000 ? count : 5000))
    round=$((round + 1))
    count=$((count - some))
    "$folder/on_processor" make "$round" "$some" >"$folder/states" && "$program" "$folder/states" >"$folder/steps" || exit 1
    "$folder/on_processor" compare "$folder/states" "$folder/steps" >"$folder/said.$round" || failed=1
done

# The lines of all rounds, summed, and the differences of the first that has some.
awk '/ the same, [0-9]+ not$/ {
    name = substr($0, 1, 16)
    if (!(name in same)) order[++names] = name
    same[name] += $(NF - 4)
    other[name] += $(NF - 1)
}
END { for (i = 1; i <= names; i++) printf "%s %9d the same, %d not\n", order[i], same[order[i]], other[order[i]] }' "$folder"/said.*
grep -h -A3 ' differs:' "$folder"/said.* | head -n 60
[ "$failed" -eq 0 ] && echo "ok" || echo "some steps differ"
exit "$failed"
