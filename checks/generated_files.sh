#!/usr/bin/env bash
# Compares each generated file with what its script writes. A script stands in its crate's tools and has --check; one without
# it is no script that writes. Prints a line for each; the status is the number of scripts whose files are others. It stands
# outside the gate.
set -u
top=$(dirname "$(dirname "$(readlink -f "$0")")")
. "$top/checks/check.sh"

for script in "$top"/crates/*/tools/*.py; do
    if grep -q '^if __name__' "$script"; then
        check "${script#"$top"/}" python3 -B "$script" --check
    fi
done
exit "$failures"
