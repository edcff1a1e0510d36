# What scripts that read this file share. They end with status 0 where no check failed, 1 where one did, and 3 where nothing
# was checked.
failures=0

# check NAME TEST..: prints a line for the check, by whether the test holds.
check() {
    local name=$1
    shift
    if "$@"; then
        echo "ok       $name"
    else
        echo "FAILED   $name"
        failures=$((failures + 1))
    fi
}

# needs TOOL..: ends the script where one of them isn't found.
needs() {
    local tool
    for tool in "$@"; do
        if ! command -v "$tool" >/dev/null; then
            echo "skipped  $tool isn't found"
            exit 3
        fi
    done
}

# needs_program TOP: ends the script where the program that TOP/sw runs isn't there and can't be built.
needs_program() {
    [ -x "$1/crates/sw_cli/out/sw_cli" ] || needs rt
}

# ends_by_failures: ends the script.
ends_by_failures() {
    echo "$failures failed"
    [ "$failures" -eq 0 ]
    exit
}
