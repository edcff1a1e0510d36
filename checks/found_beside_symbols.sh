#!/usr/bin/env bash
# Compiles C programs by gcc -m32, without a library, and compares what code_listing finds in them with their symbols and with what objdump
# shows: each function that found code calls, and each whose address stands as a word in data, is a procedure; to each that found code jumps
# an instruction is found; and at each address that both list the bytes are the same. Prints a line for each check; the status is 0 where none
# failed, 1 where one did, and 3 where gcc, readelf, objdump, python3 or the program is missing. It stands outside the gate, since no proof
# speaks of a compiler.
set -u
top=$(dirname "$(dirname "$(readlink -f "$0")")")
. "$top/checks/check.sh"
needs gcc readelf objdump python3
program=$(cd "$top/checks" && python3 -B -c 'import programs; print(programs.built("code_listing"))') || {
    echo "$program"
    exit 3
}
folder=$(mktemp -d) || exit 1
trap 'rm -rf "$folder"' EXIT
export LC_ALL=C
flags="-m32 -O2 -march=i686 -mno-sse -fno-pic -fno-pie -no-pie -static -nostdlib -ffreestanding -fcf-protection=none
    -fno-stack-protector -fno-asynchronous-unwind-tables -Wl,--build-id=none"
cp "$top"/bench/programs/*.[ch] "$folder"
cd "$folder" || exit 1

# Functions that are called, called by a table of their addresses, passed on, stored, and jumped to as the last thing that one does; and a
# switch, whose cases are places of a table.
cat >calls.c <<'C'
#include "start.h"
typedef unsigned (*step)(unsigned);
#define APART __attribute__((noinline, noclone)) static
APART unsigned twice(unsigned n) { return n * 2 + 1; }
APART unsigned turned(unsigned n) { return (n << 5) | (n >> 27); }
APART unsigned mixed(unsigned n) { return turned(n) ^ twice(n); }
APART unsigned alone(unsigned n) { return n ^ 0x5A5A5A5A; }
APART unsigned stored(unsigned n) { return n - 77; }
APART unsigned last(unsigned n) { return alone(n + 3); }
APART unsigned passed(step one, unsigned n) { return one(one(n)); }
const step steps[] = {twice, turned, mixed, last};
step later;
APART unsigned chosen(unsigned n) {
    switch (n % 9) {
    case 0: return twice(n);
    case 1: return n / 3;
    case 2: return n * n;
    case 3: return passed(alone, n);
    case 4: return n ^ 12345;
    case 5: return ~n;
    case 6: return n >> 3;
    case 7: return passed(later, n);
    default: return 1;
    }
}
static unsigned work(void) {
    unsigned sum = 1;
    later = stored;
    for (unsigned turn = 0; turn < 1000; turn++) sum = chosen(steps[sum % 4](sum) + turn);
    return sum;
}
C

# functions FILE: the address of each function that has a symbol, and its name.
functions() {
    readelf -sW "$1" | awk '$4 == "FUNC" && $7 != "UND" { print toupper($2), $8 }' | sort
}

# words FILE: the words of the sections of data.
words() {
    objdump -s "$1" | awk '
        /^Contents of section/ { data = $4 ~ /^\.(ro)?data|^\.data/ }
        data && /^ [0-9a-f]+ / {
            text = substr($0, index(substr($0, 2), " ") + 2, 35)
            count = split(text, group, " ")
            for (i = 1; i <= count; i++)
                if (length(group[i]) == 8)
                    print toupper(substr(group[i], 7, 2) substr(group[i], 5, 2) substr(group[i], 3, 2) substr(group[i], 1, 2))
        }' | sort -u
}

# code FILE: of each instruction that objdump shows its address, its bytes in one, its name and its first operand.
code() {
    objdump -d --insn-width=15 "$1" | awk -F '\t' '
        /^ *[0-9a-f]+:\t/ {
            at = $1
            gsub(/[ :]/, "", at)
            at = toupper(substr("00000000" at, length(at) + 1))
            bytes = toupper($2)
            gsub(/ /, "", bytes)
            split($3, word, " ")
            print at, bytes, word[1], word[2]
        }' | sort
}

# led_to PATTERN: the addresses to which found code leads by instructions of that name.
led_to() {
    join found.code shown | awk -v wanted="$1" '$4 ~ wanted && $5 ~ /^[0-9a-f]+$/ { print toupper(substr("00000000" $5, length($5) + 1)) }' |
        sort -u
}

# are_listed LIST FOUND: no function whose address stands in LIST is missing in FOUND; prints those that are.
are_listed() {
    local missing
    missing=$(join functions "$1" | join -v 1 - "$2")
    [ -z "$missing" ] || echo "$missing"
    [ -z "$missing" ]
}

# same_bytes: at each address that both list.
same_bytes() {
    local other
    other=$(join found.code shown | awk '$2 != $3')
    [ -z "$other" ] || echo "$other"
    [ -z "$other" ]
}

for source in *.c; do
    name=${source%.c}
    # shellcheck disable=SC2086
    if ! gcc $flags -o "$name" "$source" 2>said; then
        echo "skipped  gcc -m32 doesn't compile: $(tail -n 1 said)"
        exit 3
    fi
    "$program" <"$name" >listing
    check "$name is listed" [ $? -eq 0 ]
    awk '$1 == "procedure" { print $2 }' listing | sort >found.procedures
    awk '$1 != "procedure" && $1 != "table" { print $1, $2 }' listing | sort >found.code
    functions "$name" >functions
    code "$name" >shown
    words "$name" >stored
    led_to '^call' >called
    led_to '^j' >jumped
    count=$(join functions called | wc -l)
    check "$name: functions that are called are procedures, $count" are_listed called found.procedures
    count=$(join functions stored | wc -l)
    check "$name: functions whose addresses stand in data are procedures, $count" are_listed stored found.procedures
    count=$(join functions jumped | wc -l)
    check "$name: to functions that are jumped to instructions are found, $count" are_listed jumped found.code
    count=$(join found.code shown | wc -l)
    check "$name: the bytes are those that objdump shows, of $count instructions" same_bytes
done

ends_by_failures
