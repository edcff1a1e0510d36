#!/usr/bin/env bash
# Calls ./sw in a copy of this repository in which a stub stands for rt: it notes that it was called, says what rt says, and writes
# a program that says which words it has. So what ./sw prints, when it builds and what it ends with is seen without a proof. Prints a
# line for each check; the status is 0 where none failed, else 1. It stands outside the gate, since no proof speaks of a script.
set -u
top=$(dirname "$(dirname "$(readlink -f "$0")")")
. "$top/checks/check.sh"
folder=$(readlink -f "$(mktemp -d)") || exit 1
trap 'rm -rf "$folder"' EXIT
copy=$folder/copy
mkdir "$copy" "$folder/bin" "$folder/elsewhere"
cp "$top/sw" "$top/crates.txt" "$copy"
(cd "$top" && cp -r --parents crates/*/{src,specs,proofs} crates/sw_cli/tools "$copy" 2>/dev/null)
program=$copy/crates/sw_cli/out/sw_cli
# What stands in the copy is older than what is built, and what is touched below is newer.
find "$copy" -exec touch -d "1 hour ago" {} +

# The program says its words, its input's first line, its folder and whether the signal of a limit on files is ignored.
cat >"$folder/program" <<'PROGRAM'
#!/bin/sh
[ $# -gt 0 ] || { echo "sw: usage" >&2; exit 125; }
case $1 in -*) echo "sw: usage" >&2; exit 125 ;; esac
printf '<%s>' "$@"
read -r line && echo " $line"
pwd -P >"$0.folder" 2>/dev/null
ignored=$(sed -n 's/^SigIgn:[[:space:]]*//p' /proc/self/status)
[ $((0x$ignored >> 24 & 1)) -eq 1 ] && exit 17
exit 18
PROGRAM
cat >"$folder/bin/rt" <<RT
#!/usr/bin/env bash
echo "\$PWD \$*" >>"$folder/called"
echo "text before"
for name in byte_lists image sw_top; do
    echo "said of \$name"
    [ ! -e "$folder/fails" ] || [ \$name != image ] || { echo "fn image::page: not proved"; exit 1; }
    echo "crate \$name: modules loaded=1 checked=1"
    echo "logic=proved functions=1"
done
mkdir -p out
cp "$folder/program" out/sw_cli
chmod +x out/sw_cli
exec out/sw_cli
RT
chmod +x "$folder/bin/rt"
PATH=$folder/bin:$PATH
export PATH
cd "$folder/elsewhere" || exit 1

# calls STATUS WORDS..: ./sw of the copy ends so; leaves said.out and said.err.
calls() {
    local wanted=$1
    shift
    rm -f "$folder/called"
    echo "a line" | "$copy/sw" "$@" >said.out 2>said.err
    [ $? -eq "$wanted" ]
}

# works: a call does its work in the caller's folder.
works() {
    calls 17 rewrite && [ "$(cat said.out)" = "<rewrite> a line" ] && [ "$(cat "$program.folder")" = "$PWD" ]
}

# builds and is_kept: so it does, after a build of the program, or without one.
builds() {
    works && [ "$(cat "$folder/called")" = "$copy/crates/sw_cli run" ]
}

is_kept() {
    works && [ ! -e "$folder/called" ] && [ ! -s said.err ]
}

# helps STATUS WORDS..: it ends so, and says its forms, where the README is, and what the program says.
helps() {
    calls "$@" && grep -qF "./sw rewrite IN OUT MAP" said.err && grep -qF "$copy/README.md" said.err && [ ! -s said.out ] &&
        [ "$(tail -n 1 said.err)" = "sw: usage" ]
}

# says TEXT..: the standard error was these lines.
says() {
    printf '%s\n' "$@" | cmp -s - said.err
}

# newer PATH..: the file or folder of the copy was changed after the build.
newer() {
    (cd "$copy" && touch -d "1 hour" "$@")
}

# rebuilt: as if the changes had been an hour ago, and then built.
rebuilt() {
    find "$copy/crates.txt" "$copy"/crates/*/{src,specs,proofs} -exec touch -d "1 hour ago" {} + 2>/dev/null
    rm -f "$program"
    calls 17 rewrite
}

check "--help before any build: its text, 0, nothing built" calls 0 --help
check "--help before any build: rt isn't called" [ ! -e "$folder/called" ]
check "--help before any build: the forms" grep -qF "./sw rewrite IN OUT MAP" said.err
count=$(PATH=$folder/bin:$PATH "$copy/crates/sw_cli/tools/build.sh" 2>&1 >/dev/null | sed -n 's/.*from \([0-9]*\) crates$/\1/p')
rm -rf "$copy/crates/sw_cli/out"
check "the first call builds in crates/sw_cli and passes words and input on" builds
said=("sw: building the program, from $count crates")
for name in byte_lists image sw_top; do
    said+=("sw: proved $name, $(grep -n "proved $name," said.err | sed 's/.*, \([0-9]*\) left$/\1/') left")
done
check "the first call says a line for each crate that is proved" says "${said[@]}"
check "the crates that are left are those that come later" [ "$(sed -n 's/^sw: proved sw_top, //p' said.err)" = "1 left" ]
check "the next call builds nothing and says nothing" is_kept
check "a limit on files is no signal to the program" calls 17 rewrite

check "no words: 125, the forms and the program's line" helps 125
check "--help: 0, the forms and the program's line" helps 0 --help
check "-h: 0, the forms and the program's line" helps 0 -h
check "other wrong words: the program's answer" calls 125 --version
check "other wrong words: its line alone" says "sw: usage"
check "--help beside other words: the program's answer" calls 125 --help me
check "--help beside other words: its line alone" says "sw: usage"
check "words with spaces" calls 17 "rewrite a" "" "b  c"
check "words with spaces: as they are" [ "$(cat said.out)" = "<rewrite a><><b  c> a line" ]
ln -s "$copy/sw" link
check "through a link" [ "$(./link rewrite <<<"a line")" = "<rewrite> a line" ]
check "from its own folder, by sh" [ "$(cd "$copy" && sh sw rewrite <<<"a line")" = "<rewrite> a line" ]
check "in a folder that was removed: nothing built" [ "$(mkdir gone && cd gone && rmdir ../gone && "$copy/sw" rewrite 2>/dev/null <<<"a line")" = "<rewrite> a line" ]

for name in byte_lists/src/lib.rt image/specs/Lib.antt sw_cli/src/main.rt x86_meaning/proofs/Lib.antt x86_values/specs; do
    newer "crates/$name"
    check "$name is newer: built" builds
    rebuilt
done
for name in trace_checks/src/lib.rt x86_encode/src/lib.rt end_to_end/src/lib.rt instruction_table/src/main.rt; do
    newer "crates/$name"
    check "$name is newer: not built, since the program doesn't stand on it" is_kept
done
rebuilt
newer crates/sw_cli/README.md crates/sw_cli crates/image/must-fail
check "other files of a crate are newer: not built" is_kept
touch "$copy/crates/image/specs/New.antt"
newer crates/image/specs
check "a file is added: built" builds
rebuilt
rm "$copy/crates/image/specs/New.antt"
newer crates/image/specs
check "a file is removed: built" builds
rebuilt
mv "$copy/crates/image/specs" "$folder/specs"
check "a folder is removed: built" builds
rebuilt
check "a folder isn't there, as it was: not built" is_kept
mv "$folder/specs" "$copy/crates/image/specs"
check "a folder is added: built" builds
rebuilt
rm "$program.sources" "$program.crates"
check "the program was built by rt alone: not built again" is_kept
touch "$program"
check "the program was built again by rt alone: not built again" is_kept
newer crates/image/specs/Lib.antt
rm "$program.sources"
check "the program was built by rt alone, and a file is newer: built" builds
rebuilt
rm "$program"
check "the program is missing: built" builds

rebuilt
sed -i 's/^trace_checks: .*/trace_checks: traces image/' "$copy/crates.txt"
echo "# a comment" >>"$copy/crates.txt"
newer crates.txt
check "crates.txt is newer, and no line of a crate that the program stands on: not built" is_kept
rebuilt
sed -i 's/^sw_top: /sw_top: traces /' "$copy/crates.txt"
newer crates.txt
check "crates.txt has another line for such a crate: built" builds
rebuilt

touch "$folder/fails"
rm "$program"
check "a build fails: 2" calls 2 rewrite
check "a build fails: what rt said since the last crate was proved" says "sw: building the program, from $count crates" \
    "$(grep 'proved byte_lists' said.err)" "said of image" "fn image::page: not proved" "sw: the program can't be built"
check "a build fails: no program, and nothing on the standard output" [ ! -e "$program" -a ! -s said.out ]
rm "$folder/bin/rt"
PATH=/usr/bin:/bin
if ! command -v rt >/dev/null; then
    check "no rt: 2" calls 2 rewrite
    check "no rt: its line" says "sw: the program isn't built, and rt, which builds it, isn't found"
fi

ends_by_failures
