#!/usr/bin/env bash
# Runs the checks of this folder that take seconds, about a minute together, and says of each whether it passed, failed or was skipped,
# since something that it needs isn't there; of one that failed also what it printed. The status is 0 where none failed, else 1.
set -u
folder=$(dirname "$(readlink -f "$0")")
failures=0

for name in start_script.sh run_on_linux.sh run_on_machine.sh no_executable_data.sh written_files_beside_readelf.sh refused_allocations.sh; do
    said=$("$folder/$name" 2>&1)
    case $? in
        0) echo "ok       checks/$name" ;;
        3) echo "skipped  checks/$name: $(tail -n 1 <<<"$said")" ;;
        *)
            echo "FAILED   checks/$name"
            printf '%s\n' "$said"
            failures=$((failures + 1))
            ;;
    esac
done

echo "$failures failed"
[ "$failures" -eq 0 ]
