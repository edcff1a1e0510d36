#!/usr/bin/env bash
# Builds the program for ./sw, by rt, which proves each crate that it stands on, and says on the standard error which is proved.
# Beside the program it leaves what ./sw looks at to see whether the program is up to date: sw_cli.crates, the lines of those crates
# in crates.txt, and sw_cli.sources, tests of each of their files and folders. The status is 2 where it can't be built.
#
# A program that rt built in another call, as rt ci does, is taken as it is where nothing that it is made from is newer.
#
# With the word same it builds nothing: the status is 0 where crates.txt still has the lines of sw_cli.crates.
top=$(dirname "$(readlink -f "$0")")/../../..
top=$(cd "$top" && pwd) || exit 2
program=$top/crates/sw_cli/out/sw_cli

declare -A depends listed
while read -r line; do
    line=${line%%#*}
    [[ $line != *:* ]] || depends[${line%%[: ]*}]=${line#*:}
done <"$top/crates.txt"

# list NAME: adds the crate to the list, after each that it stands on, in the order in which rt proves them. A library of rt's
# has no line.
names=()
list() {
    local below
    [[ -v depends[$1] && ! -v listed[$1] ]] || return 0
    listed[$1]=yes
    for below in ${depends[$1]}; do
        list "$below"
    done
    names+=("$1")
}
list sw_cli

lines() {
    local name
    for name in "${names[@]}"; do
        echo "$name:${depends[$name]}"
    done
}

# tested: prints a test for each file and folder of the crates, that it is newer than the program. A file that is added or removed makes
# its folder newer, and of the three folders of a crate it is also tested that they are there or not as they were.
tested() {
    local name folder
    for name in "${names[@]}"; do
        for folder in "$name"/{src,specs,proofs}; do
            if [ -d "$folder" ]; then
                echo "! -d $folder"
                find "$folder" -printf '%p -nt sw_cli/out/sw_cli\n'
            else
                echo "-e $folder"
            fi
        done
    done
}

# sources: prints the tests as ./sw reads them, in the folder of the crates: several in one command, which saves time.
sources() {
    local tests place joined
    cd "$top/crates" || return
    mapfile -t tests < <(tested)
    for ((place = 0; place < ${#tests[@]}; place += 16)); do
        printf -v joined ' -o %s' "${tests[@]:place:16}"
        echo "[ ${joined# -o } ] && return 1"
    done
    echo "return 0"
}

# left NAME: how many crates rt comes to after this one.
left() {
    local place
    for place in "${!names[@]}"; do
        [ "${names[place]}" != "$1" ] || echo $((${#names[@]} - 1 - place))
    done
}

# follows: reads what rt says, and says which crates are proved. Where the last line isn't the status of a program that ran
# without words, it says what rt said since then.
follows() {
    local line name= said=
    while IFS= read -r line; do
        case $line in
            "crate "*": modules "*) name=${line#crate } name=${name%%:*} ;;
            "logic=proved "*)
                echo "sw: proved $name, $(left "$name") left"
                said=
                continue
                ;;
            "ended 125") return 0 ;;
            "ended "*) break ;;
        esac
        said+=$line$'\n'
    done
    printf '%s' "$said"
    echo "sw: the program can't be built"
    return 2
}

if [ "${1:-}" = same ]; then
    lines | cmp -s - "$program.crates" && touch "$program.crates"
    exit
fi
tests=$(sources)

# keeps: leaves what ./sw looks at.
keeps() {
    lines >"$program.crates" && echo "$tests" >"$program.sources"
}

# is_newest: rt built the program in another call, after all that it is made from.
is_newest() {
    [ -x "$program" ] && [ ! "$program.sources" -nt "$program" ] && [ "$program" -nt "$top/crates.txt" ] &&
        cd "$top/crates" && eval "$tests"
}

if is_newest; then
    keeps
    exit
fi
if ! command -v rt >/dev/null; then
    echo "sw: the program isn't built, and rt, which builds it, isn't found" >&2
    exit 2
fi
echo "sw: building the program, from ${#names[@]} crates" >&2
began=$(date +%s.%N)
cd "$top/crates/sw_cli" || exit 2
# rt runs what it built, without words.
{
    rt run </dev/null 2>&1
    echo "ended $?"
} | follows >&2 || exit 2
touch -d "@$began" "$program" && keeps
