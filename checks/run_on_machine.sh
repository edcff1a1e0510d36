#!/usr/bin/env bash
# Runs the examples, their written files, other files and, where gcc compiles for the i386, the programs of bench/programs with ./sw run, over real streams:
# pipes, closed ones and ones that nobody reads. Prints a line for each check; the status is 0 where none failed, 1 where one did, and 3 where the
# program is missing. It stands outside the gate, since no proof speaks of the streams of a process.
set -u
top=$(dirname "$(dirname "$(readlink -f "$0")")")
sw=$top/sw
. "$top/checks/check.sh"
needs_program "$top"
folder=$(mktemp -d) || exit 1
trap 'rm -rf "$folder"' EXIT
cd "$folder" || exit 1
ulimit -c 0

# runs STATUS LINE TEXT WORDS..: ./sw ends so, says that line alone on the standard error (none if empty), and prints that text.
runs() {
    local wanted=$1 line=$2 text=$3 got
    shift 3
    "$sw" "$@" >said.out 2>said.err
    got=$?
    { [ -z "$line" ] || echo "$line"; } >wanted.err
    printf '%b' "$text" >wanted.out
    [ "$got" -eq "$wanted" ] && cmp -s said.out wanted.out && cmp -s said.err wanted.err
}

"$sw" 2>/dev/null
for name in echo_byte exit7 hello jumps other_call; do
    cp "$top/examples/$name" "$name"
    "$sw" rewrite "$name" "$name.new" "$name.map"
    chmod +x "$name"
done

for kind in "" .new; do
    check "exit7$kind ends with 7" runs 7 "" "" run "exit7$kind"
    check "hello$kind writes hi" runs 0 "" "hi\n" run "hello$kind" with other words
    check "jumps$kind ends with 5" runs 5 "" "" run "jumps$kind"
    check "other_call$kind: 117 with the call's number" runs 117 "sw: call 20" "" run "other_call$kind"
    check "echo_byte$kind echoes a byte" runs 0 "" K run "echo_byte$kind" <<<K
    check "echo_byte$kind at the end of its input writes the zero that is there" runs 0 "" "\0" run "echo_byte$kind" </dev/null
    check "echo_byte$kind without a standard input" runs 0 "" "\0" run "echo_byte$kind" <&-
    check "hello$kind: two steps are not enough" runs 119 "sw: steps spent" "" run-steps 2 "hello$kind"
done
"$sw" run hello >/dev/full
check "hello on a full device: the program goes on" [ $? -eq 0 ]
"$sw" run hello >&-
check "hello without a standard output: the program goes on" [ $? -eq 0 ]
{
    sleep 0.2
    "$sw" run hello
    echo $? >left
} | true
check "hello into a pipe whose reader has left: the program goes on" [ "$(cat left)" = 0 ]
check "hello into a pipe" [ "$("$sw" run hello | cat)" = hi ]

: >empty
head -c 100000 /dev/urandom >noise
check "an empty file: 124" runs 124 "sw: refused Short" "" run empty
check "random bytes: 124" runs 124 "sw: refused Magic" "" run noise
check "a missing file: 121" runs 121 "sw: host fault" "" run none
check "a folder: 121" runs 121 "sw: host fault" "" run .
check "no file: 125" runs 125 "sw: usage" "" run
check "a number with a leading zero: 125" runs 125 "sw: usage" "" run-steps 07 exit7
check "a number past the greatest: 125" runs 125 "sw: usage" "" run-steps 4000000001 exit7
check "the greatest number" runs 7 "" "" run-steps 4000000000 exit7
check "no step" runs 119 "sw: steps spent" "" run-steps 0 exit7
check "words that nearly fill the stack" runs 7 "" "" run exit7 "$(head -c 131000 /dev/zero | tr '\0' a)"
check "words that fill more than the stack: 125" runs 125 "sw: usage" "" run exit7 "$(head -c 131060 /dev/zero | tr '\0' a)"

flags="-m32 -O2 -march=i686 -mno-sse -fno-pic -fno-pie -no-pie -static -nostdlib -ffreestanding -fcf-protection=none
-fno-stack-protector -fno-asynchronous-unwind-tables -Wl,--build-id=none"
for program in sieve hash sort; do
    if ! gcc $flags -o "$program" "$top/bench/programs/$program.c" 2>/dev/null; then
        echo "skipped  $program: gcc doesn't compile for the i386"
    elif ! "./$program" >"$program.native" 2>/dev/null; then
        echo "skipped  $program: this system doesn't run i386 files in $folder"
    else
        check "$program prints what it prints natively" runs 0 "" "$(cat "$program.native")\n" run-steps 4000000000 "$program"
    fi
done

ends_by_failures
