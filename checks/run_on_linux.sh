#!/usr/bin/env bash
# Rewrites the examples with ./sw, and runs the old and the new files on this Linux. It also calls ./sw where a call is to
# fail. Prints a line for each check; the status is 0 where none failed, 1 where one did, and 3 where the program is missing. It
# stands outside the gate, since no proof speaks of the kernel, of files or of the standard error.
set -u
top=$(dirname "$(dirname "$(readlink -f "$0")")")
sw=$top/sw
. "$top/checks/check.sh"
needs_program "$top"
folder=$(mktemp -d) || exit 1
trap 'rm -rf "$folder"' EXIT
cd "$folder" || exit 1
ulimit -c 0

# calls STATUS LINE WORDS..: ./sw ends so, says that line alone on the standard error (none if empty), and prints nothing.
calls() {
    local wanted=$1 line=$2 got
    shift 2
    "$sw" "$@" >said.out 2>said.err
    got=$?
    { [ -z "$line" ] || echo "$line"; } >wanted.err
    [ "$got" -eq "$wanted" ] && [ ! -s said.out ] && cmp -s said.err wanted.err
}

# stores_nothing STATUS LINE WORDS..: as calls, and there is no file out and no file map after it.
stores_nothing() {
    rm -f out map
    calls "$@" && [ ! -e out ] && [ ! -e map ]
}

# keeps STATUS LINE WORDS..: as calls, and an old file out and an old file map are as they were.
keeps() {
    echo "an old OUT" >out
    echo "an old MAP" >map
    calls "$@" && [ "$(cat out)" = "an old OUT" ] && [ "$(cat map)" = "an old MAP" ]
}

# refuses NAME STATUS LINE FILE: the file is turned away so, whether OUT and MAP are there or not.
refuses() {
    check "$1: $2, nothing stored" stores_nothing "$2" "$3" rewrite "$4" out map
    check "$1: $2, older files stay" keeps "$2" "$3" rewrite "$4" out map
}

# through STATUS NAME: the program ended so, and what came through the pipe is the new file, or an equal one.
through() {
    [ "$status" -eq "$1" ] && cmp -s "$2" exit7.new && [ "$(cat map)" = "secondwrite-map 1" ]
}

# writes NAME: the example is rewritten, to a file that isn't executable, with a map without entries.
writes() {
    calls 0 "" rewrite "$1" "$1.new" "$1.map" || return 1
    [ ! -x "$1.new" ] && [ ! -x "$1.map" ] && [ "$(cat "$1.map")" = "secondwrite-map 1" ]
}

# code_is FILE BYTES: after the first two pages stand those bytes, and then zeros up to the end of a page.
code_is() {
    local code
    code=$(echo "$2" | tr -d ' ' | tr A-F a-f)
    [ "$(tail -c +8193 "$1" | od -A n -v -t x1 | tr -d ' \n')" = "$code$(printf '%0*d' $((8192 - ${#code})) 0)" ]
}

# run FILE: leaves its output in FILE.out and its status in status.
run() {
    { "./$1" >"$1.out"; } 2>/dev/null
    status=$?
}

# ends FILE STATUS TEXT: the file ends so, and writes that.
ends() {
    run "$1"
    printf "$3" >wanted.out
    [ "$status" -eq "$2" ] && cmp -s "$1.out" wanted.out
}

# limited BLOCKS WORDS..: with files limited to so many KiB ./sw ends with 121 and its line.
limited() {
    local blocks=$1 said
    shift
    said=$(
        { ulimit -f "$blocks" && "$sw" "$@"; } 2>&1
        echo $?
    )
    [ "$said" = "sw: host fault
121" ]
}

# unsynced ERROR STATUS LINE WORDS..: as calls, where each sync of a file fails with that error.
unsynced() {
    local LD_PRELOAD=$folder/unsynced.so ERROR=$1
    export LD_PRELOAD ERROR
    shift
    calls "$@"
}

# holds FILE TEXT: the file is that line.
holds() {
    echo "$2" | cmp -s - "$1"
}

# is_cut FILE WHOLE: the file is a front of the whole one.
is_cut() {
    local size
    size=$(wc -c <"$1")
    [ "$size" -lt "$(wc -c <"$2")" ] && head -c "$size" "$2" | cmp -s - "$1"
}

faults() {
    run "$1"
    [ "$status" -ne 0 ] && [ ! -s "$1.out" ]
}

# The first call builds the program, where that is needed.
if "$sw" 2>said.err; [ $? -ne 125 ]; then
    cat said.err
    echo "FAILED   ./sw without words: status 125 is wanted"
    exit 1
fi

for name in echo_byte exit7 hello jumps other_call; do
    cp "$top/examples/$name" "$name"
    chmod +x "$name"
    check "$name is rewritten" writes "$name"
done
check "exit7: the new code" code_is exit7.new "BB 07 00 00 00 B8 01 00 00 00 CD 80 0F 0B"
check "jumps: the new code" code_is jumps.new "E9 00 00 00 00 BB 05 00 00 00 E9 00 00 00 00 B8 01 00 00 00 CD 80 0F 0B"

run exit7
if [ "$status" -eq 7 ]; then
    chmod +x echo_byte.new exit7.new hello.new jumps.new other_call.new
    check "echo_byte: the old file echoes a byte and ends with 0" ends echo_byte 0 K <<<K
    check "echo_byte: the new file echoes a byte and ends with 0" ends echo_byte.new 0 K <<<K
    check "exit7: the old file ends with 7" ends exit7 7 ""
    check "exit7: the new file ends with 7" ends exit7.new 7 ""
    check "hello: the old file writes hi and ends with 0" ends hello 0 "hi\n"
    check "hello: the new file writes hi and ends with 0" ends hello.new 0 "hi\n"
    check "jumps: the old file ends with 5" ends jumps 5 ""
    check "jumps: the new file ends with 5" ends jumps.new 5 ""
    # For the program call 20 ends a run. The kernel's call 20 is getpid: it goes on, to HLT in the old file and to UD2 in
    # the new one, and both fault there, by different signals.
    check "other_call: the old file doesn't end with 0" faults other_call
    check "other_call: the new file doesn't end with 0" faults other_call.new
else
    echo "skipped  the runs of the files: this system doesn't run i386 files in $folder"
fi

: >empty
head -c 4096 exit7 >half
{ cat exit7; echo; } >long
echo "this text is no executable file, though it is longer than the header of one" >text
check "bad words: 125, nothing stored" stores_nothing 125 "sw: usage" rewrite exit7 out out
check "no form: 125, nothing stored" stores_nothing 125 "sw: usage" lift exit7 out
check "a word that isn't text: 115, nothing said" stores_nothing 115 "" rewrite exit7 out $'\xff'
{ printf '\177ELF'; head -c 48 /dev/zero; } >magic
cp exit7 greatest
truncate -s 16777216 greatest
cp exit7 over
truncate -s 16777217 over
cp exit7 double
truncate -s 33554432 double
refuses "a short file" 124 "sw: refused Short" empty
refuses "a text" 124 "sw: refused Magic" text
refuses "the magic and zeros" 124 "sw: refused Class" magic
refuses "half a file" 124 "sw: refused SegmentFile" half
refuses "a byte too many" 124 "sw: refused NotYet" long
refuses "exactly 16 MiB" 124 "sw: refused NotYet" greatest
refuses "16 MiB and a byte" 122 "sw: file too long" over
refuses "32 MiB" 122 "sw: file too long" double
refuses "a device without end" 122 "sw: file too long" /dev/zero
check "bad words: 125, older files stay" keeps 125 "sw: usage" rewrite exit7 out out
check "a missing file: 121, older files stay" keeps 121 "sw: host fault" rewrite nothing out map
check "a missing file: 121, nothing stored" stores_nothing 121 "sw: host fault" rewrite nothing out map
check "a folder as the file: 121, nothing stored" stores_nothing 121 "sw: host fault" rewrite . out map
check "OUT in a missing folder: 121, nothing stored" stores_nothing 121 "sw: host fault" rewrite exit7 none/out map
check "OUT on a full device: 121, no map stored" stores_nothing 121 "sw: host fault" rewrite exit7 /dev/full map
check "a folder as OUT: 121, nothing stored" stores_nothing 121 "sw: host fault" rewrite exit7 . map
for name in none/map /dev/full .; do
    rm -f out
    check "MAP as $name: 121" calls 121 "sw: host fault" rewrite exit7 out "$name"
    check "MAP as $name: the new file stands whole" cmp -s out exit7.new
done
rm -f out map
check "OUT past a limit on files: 121" limited 4 rewrite exit7 out map
check "OUT past a limit on files: no map stored" [ ! -e map ]
echo "an old OUT" >out
check "OUT past a limit on files, where an older file is: 121" limited 4 rewrite exit7 out map
check "OUT past a limit on files: the older file is lost" is_cut out exit7.new
mkfifo piped
cat piped >received &
check "MAP past a limit on files: 121" limited 0 rewrite exit7 piped map
wait
check "MAP past a limit on files: the new file came through whole" cmp -s received exit7.new

cat >unsynced.c <<'C'
#include <errno.h>
#include <stdlib.h>
int fsync(int file) { (void)file; errno = atoi(getenv("ERROR")); return -1; }
int fdatasync(int file) { return fsync(file); }
C
if cc -shared -fPIC -o unsynced.so unsynced.c 2>/dev/null; then
    # EIO, ENOSPC, EDQUOT; and EINVAL, EROFS, EOPNOTSUPP
    for error in 5 28 122; do
        rm -f out map
        check "OUT can't be synced, error $error: 121" unsynced "$error" 121 "sw: host fault" rewrite exit7 out map
        check "OUT can't be synced, error $error: no map stored" [ ! -e map ]
    done
    for error in 22 30 95; do
        rm -f out map
        check "there is nothing to sync, error $error: 0" unsynced "$error" 0 "" rewrite exit7 out map
        check "there is nothing to sync, error $error: both are stored" cmp -s out exit7.new
    done
else
    echo "skipped  syncs that fail: there is no C compiler"
fi

# Words name files, and two words may name one.
cp exit7 same
check "MAP as IN: 0" calls 0 "" rewrite same out same
check "MAP as IN: the new file stands whole" cmp -s out exit7.new
check "MAP as IN: the map in place of the old file" holds same "secondwrite-map 1"
cp exit7 same
check "OUT as IN: 0" calls 0 "" rewrite same same map
check "OUT as IN: the new file in place of the old one" cmp -s same exit7.new
rm -f out
check "OUT and MAP as two words for one file: 0" calls 0 "" rewrite exit7 ./out out
check "OUT and MAP as two words for one file: it is the map, which is stored last" holds out "secondwrite-map 1"
ln -s out link
check "MAP as a link to OUT: 0" calls 0 "" rewrite exit7 out link
check "MAP as a link to OUT: the file is the map" holds out "secondwrite-map 1"

if [ "$(id -u)" -eq 0 ]; then
    echo "skipped  files without permission: root may open them"
else
    cp exit7 closed
    chmod a-r closed
    mkdir locked
    chmod a-w locked
    echo "an old OUT" >kept
    chmod a-w kept
    check "IN without permission: 121, nothing stored" stores_nothing 121 "sw: host fault" rewrite closed out map
    check "OUT in a folder without permission: 121, no map stored" stores_nothing 121 "sw: host fault" rewrite exit7 locked/out map
    check "OUT without permission: 121, no map stored" stores_nothing 121 "sw: host fault" rewrite exit7 kept map
    check "OUT without permission: as it was" [ "$(cat kept)" = "an old OUT" ]
    rm -f out
    check "MAP in a folder without permission: 121" calls 121 "sw: host fault" rewrite exit7 out locked/map
    check "MAP in a folder without permission: the new file stands whole" cmp -s out exit7.new
    chmod u+w locked
fi

mkfifo pipe
rm -f map
cat pipe >received &
"$sw" rewrite exit7 pipe map
status=$?
wait
check "OUT into a named pipe with a reader: 0, and the new file came through" through 0 received
rm -f map
"$sw" rewrite exit7 /dev/stdout map | cat >received
status=${PIPESTATUS[0]}
check "OUT into a pipe as /dev/stdout: 0, and the new file came through" through 0 received
{
    sleep 0.2
    "$sw" rewrite exit7 /dev/stdout map 2>said.err
    echo $? >left
} | true
check "OUT into a pipe whose reader has left: 121" [ "$(cat left)$(cat said.err)" = "121sw: host fault" ]
rm -f out
[ "$("$sw" rewrite exit7 out /dev/stdout | cat)" = "secondwrite-map 1" ]
check "MAP into a pipe as /dev/stdout: its text came through" [ $? -eq 0 ]
check "MAP into a pipe as /dev/stdout: the new file stands whole" cmp -s out exit7.new

"$sw" rewrite empty out map 2>/dev/full
check "a line that fails changes nothing: 124" [ $? -eq 124 ]
"$sw" rewrite nothing out map 2>/dev/full
check "a line that fails after a fault changes nothing: 121" [ $? -eq 121 ]
"$sw" rewrite <(head -c 100 exit7; sleep 0.2; tail -c +101 exit7) out map
check "a file that comes in pieces: 0" [ $? -eq 0 ]
check "a file that comes in pieces: the same new file" cmp -s out exit7.new
echo "a longer file that was there before" >old
cat exit7 long >>old
check "an older, longer file is replaced" calls 0 "" rewrite exit7 old map
check "an older, longer file is replaced whole" cmp -s old exit7.new

ends_by_failures
