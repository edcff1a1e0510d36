#!/usr/bin/env bash
# Rewrites the examples with ./sw, and has readelf, objdump and gdb read the new files, where gdb is there: none has anything to object,
# and the program headers are as Linux wants them. One new file is also run, and each by qemu-i386 where that is there. Prints a line
# for each check; the status is 0 where none failed, 1 where one did, and 3 where readelf, objdump or the program is missing. It stands
# outside the gate, since no proof speaks of these tools or of a kernel.
set -u
top=$(dirname "$(dirname "$(readlink -f "$0")")")
sw=$top/sw
. "$top/checks/check.sh"
needs readelf objdump
needs_program "$top"
folder=$(mktemp -d) || exit 1
trap 'rm -rf "$folder"' EXIT
cd "$folder" || exit 1
ulimit -c 0
export LC_ALL=C

# objects_to_nothing TOOL WORDS..: it ends with 0, says nothing on the standard error, and no warning.
objects_to_nothing() {
    "$@" >said.out 2>said.err || return 1
    [ ! -s said.err ] && ! grep -qi warning said.out
}

# segments FILE: a line for each header of type LOAD: offset, address, sizes in the file and in memory, and alignment.
segments() {
    readelf -lW "$1" | awk '$1 == "LOAD" { print $2, $3, $5, $6, $NF }'
}

# are_in_order FILE: there are three segments; each begins where the last one ended or above, and is aligned to a page.
are_in_order() {
    local count=0 end=0 offset address in_file in_memory align
    while read -r offset address in_file in_memory align; do
        ((address >= end && align == 0x1000 && (address - offset) % align == 0)) || return 1
        end=$((address + in_memory))
        count=$((count + 1))
    done < <(segments "$1")
    [ "$count" -eq 3 ]
}

# denies_execution FILE: there is one header for the stack, and it and each segment that can be written are without execution.
denies_execution() {
    [ "$(readelf -lW "$1" | awk '$1 == "GNU_STACK" { print $7 }')" = RW ] && ! readelf -lW "$1" | grep -q "RWE"
}

# emulates FILE STATUS TEXT: qemu-i386 runs the file, which ends so and writes that, as it does on the text K.
emulates() {
    local status
    printf K | qemu-i386 "./$1" >emulated.out 2>emulated.err
    status=$?
    printf "$3" | cmp -s - emulated.out && [ "$status" -eq "$2" ] && [ ! -s emulated.err ]
}

# is_no_larger FILE: than a page of headers and the pages that its segments have in it.
is_no_larger() {
    local size=4096 offset address in_file in_memory align
    while read -r offset address in_file in_memory align; do
        size=$((size + (in_file + 4095) / 4096 * 4096))
    done < <(segments "$1")
    [ "$(wc -c <"$1")" -le "$size" ]
}

# ends_with FILE STATUS
ends_with() {
    local status
    { "./$1" >/dev/null; } 2>/dev/null
    status=$?
    [ "$status" -eq "$2" ]
}

command -v gdb >/dev/null || echo "skipped  gdb isn't found"
for name in echo_byte exit7 hello jumps other_call; do
    cp "$top/examples/$name" "$name"
    check "$name is rewritten" "$sw" rewrite "$name" "$name.new" "$name.map"
    check "$name: readelf objects to nothing" objects_to_nothing readelf -lW "$name.new"
    check "$name: objdump objects to nothing" objects_to_nothing objdump -x "$name.new"
    ! command -v gdb >/dev/null || check "$name: gdb objects to nothing" objects_to_nothing gdb -batch -nx -ex "info files" "$name.new"
    check "$name: neither the stack nor data can be executed" denies_execution "$name.new"
    check "$name: the segments are in order" are_in_order "$name.new"
    check "$name: the file is no larger than its pages" is_no_larger "$name.new"
done

chmod +x exit7 ./*.new
if ends_with exit7 7; then
    check "exit7: the new file ends with 7" ends_with exit7.new 7
else
    echo "skipped  the run of a file: this system doesn't run i386 files in $folder"
fi
if command -v qemu-i386 >/dev/null; then
    check "echo_byte: qemu-i386 runs the new file" emulates echo_byte.new 0 K
    check "exit7: qemu-i386 runs the new file" emulates exit7.new 7 ""
    check "hello: qemu-i386 runs the new file" emulates hello.new 0 "hi\n"
    check "jumps: qemu-i386 runs the new file" emulates jumps.new 5 ""
else
    echo "skipped  qemu-i386 isn't found"
fi

ends_by_failures
