#!/usr/bin/env bash
# Compares the lists that instructions are lifted to with their steps, from random states: registers, flags, memory and faults, wherever the step is specified. For each form of
# instruction but the system call it makes 1,500 states, or as many as its first word says. checks/states.h says what a state has. Prints a line for each form, and of each at
# most three differences. The status is 0 where none differs, 1 where one does, and 3 where nothing was compared, since gcc or the programs aren't there.
set -u
top=$(dirname "$(dirname "$(readlink -f "$0")")")
. "$top/checks/check.sh"
needs gcc
count=${1:-1500}
folder=$(mktemp -d) || exit 1
trap 'rm -rf "$folder"' EXIT
gcc -O1 -o "$folder/lists_beside_steps" "$top/checks/lists_beside_steps.c" || exit 1

for program in single_steps lifted_steps; do
    if command -v rt >/dev/null; then
        (cd "$top/crates/$program" && rt run </dev/null >"$folder/said" 2>&1)
    fi
    [ -x "$top/crates/$program/out/$program" ] || needs rt
    [ -x "$top/crates/$program/out/$program" ] || exit 1
done

"$folder/lists_beside_steps" make 1 "$count" >"$folder/states" || exit 1
"$top/crates/single_steps/out/single_steps" "$folder/states" >"$folder/steps" || exit 1
"$top/crates/lifted_steps/out/lifted_steps" "$folder/states" >"$folder/lists" || exit 1
"$folder/lists_beside_steps" compare "$folder/states" "$folder/steps" "$folder/lists"
failed=$?
[ "$failed" -eq 0 ] && echo "ok"
exit "$failed"
