#!/usr/bin/env bash
# Rewrites examples/echo_byte with ./sw, runs the new file until it reads from a pipe, and reads from /proc how the kernel has laid out
# its memory: but for the kernel's own [vdso] no page can be executed outside the segment of code at 0x60000000, and none can be
# both written and executed. Prints a line for each check; the status is 0 where none failed, 1 where one did, and 3 where the program is
# missing or this system runs no i386 files. It stands outside the gate, since no proof speaks of a kernel.
set -u
top=$(dirname "$(dirname "$(readlink -f "$0")")")
. "$top/checks/check.sh"
needs mkfifo
needs_program "$top"
folder=$(mktemp -d) || exit 1
trap 'rm -rf "$folder"' EXIT
cd "$folder" || exit 1
ulimit -c 0

# reads NAME: waits up to five seconds until the process is that file and sleeps in its read.
reads() {
    local state _
    for _ in $(seq 100); do
        read -r _ _ state _ <"/proc/$process/stat" || return 1
        [ "$(readlink "/proc/$process/exe")" != "$folder/$1" ] || [ "$state" != S ] || return 0
        sleep 0.05
    done
    return 1
}

# shows NAME: runs the file up to its read, and leaves its mappings in maps: addresses, permissions and, of those that the kernel names,
# the name. Then it is given a byte, and ends.
shows() {
    "./$1" <pipe >"$1.out" 2>/dev/null &
    process=$!
    reads "$1" && awk '{ print $1, $2, $6 }' "/proc/$process/maps" >maps
    printf K >&3
    wait "$process"
    [ $? -eq 0 ] && [ "$(cat "$1.out")" = K ] && [ -s maps ]
}

# allows PERMISSIONS: the addresses of the mappings with these permissions, a pattern, but for [vdso].
allows() {
    awk -v wanted="$1" '$2 ~ wanted && $3 != "[vdso]" { print $1 }' maps
}

# can_be_written ADDRESS: a mapping that can be written begins there.
can_be_written() {
    grep -q "^0*$1-[0-9a-f]* rw-" maps
}

folder=$(readlink -f .)
cp "$top/examples/echo_byte" echo_byte
chmod +x echo_byte
mkfifo pipe
exec 3<>pipe
if [ "$({ printf K | ./echo_byte; } 2>/dev/null)" != K ] || [ ! -e /proc/self/maps ]; then
    echo "skipped  the run of a file: this system doesn't run i386 files in $folder, or has no /proc"
    exit 3
fi
check "echo_byte is rewritten" "$top/sw" rewrite echo_byte new map
chmod +x new
check "the new file waits for a byte, echoes it and ends with 0" shows new
cat maps
check "the code at 0x60000000 alone can be executed" [ "$(allows x)" = 60000000-60001000 ]
check "no page can be both written and executed" [ -z "$(allows 'w.*x')" ]
check "the old page of code can't be executed" [ -z "$(allows x | grep '^0*8049000-')" ]
check "the page of zeros can be written" can_be_written 804a000

ends_by_failures
