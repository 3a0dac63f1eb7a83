#!/usr/bin/env bash
# documents.sh [SLUB [TOOLS]]: tries what README.md, docs/TEACH.md and docs/RECORDED.md tell a reader to type. A line of a code
# block that begins with `$ ` is a command, and the lines below it are what it prints; `..` stands for lines that are left out. A
# command of ./slub is run: where it is that of an example, examples/ has its whole output and its status; else all that it prints
# stands in the document, and its status is 0. `./slub whatif` isn't run here: it must be that of an example, and
# tests/examples.sh runs it. Of every other command it is asked whether such a script is here. Last, each file and crate that any
# document names must be here. Where the first word is steps, outcomes or recorded, the program is slub_tools, and slub else. A
# program that isn't given is made by `rt try`, unproved, in about a minute.
top=$(cd "$(dirname "${BASH_SOURCE[0]}")/.." && pwd) || exit 2
room=$(mktemp -d) || exit 2
trap 'rm -rf "$room"' EXIT
passed=0
failed=0
shopt -s nullglob

# Whether a case passed, and what isn't so where it didn't.
passes() { passed=$((passed + 1)); }
fails() {
    failed=$((failed + 1))
    echo "tests/documents.sh: $1" >&2
}
wants() { if "${@:2}"; then passes; else fails "$1"; fi; }

# The commands of a document, each in a file NAME.command with what it prints in NAME.printed.
take_commands() {
    awk -v prefix="$room/$2" '
        /^```/ { inside = !inside; name = ""; next }
        inside && /^\$ / { name = prefix "." ++n; print substr($0, 3) > (name ".command"); printf "" > (name ".printed"); next }
        inside && name != "" { print > (name ".printed") }
    ' "$1"
}

# Whether a text is that of a file, where `..` stands for any lines that are left out.
is_excerpt() {
    awk '
        FNR == NR { whole[++last] = $0; next }
        $0 == ".." { anywhere = 1; next }
        anywhere { while (at < last && whole[at + 1] != $0) at++; anywhere = 0 }
        whole[++at] != $0 || at > last { bad = 1; exit }
        END { exit bad || !(anywhere || at == last) }
    ' "$2" "$1"
}

# The example with the words of $room/words and the input $1, or nothing. Its input is as tests/examples.sh has it; whatif has
# none.
example_of() {
    local out example trace
    for out in "$top"/examples/*.out; do
        example=${out%.out}
        trace=$example.trace
        [ -f "$trace" ] || trace=${example%.*}.trace
        [ -f "$trace" ] || trace=$example.recording
        if [ ! -f "$trace" ] && [ -f "${example%.*}.recording" ]; then trace=${example%.*}.out; fi
        if [ ! -f "$trace" ] || [ "$(head -1 "$example.args" 2>/dev/null)" = whatif ]; then trace=/dev/null; fi
        if [ -f "$example.args" ]; then cat "$example.args"; else printf 'replay\n--replies\n'; fi >"$room/theirs"
        if cmp -s "$room/words" "$room/theirs" && cmp -s "$1" "$trace"; then
            echo "$example"
            return
        fi
    done
}

# Lays out the case of a command of ./slub: its words, its input, what it must write, and its status.
lay_case() {
    local name=$1 words input=/dev/null example
    read -ra words <"$name.command"
    if [ "${#words[@]}" -gt 2 ] && [ "${words[-2]}" = '<' ]; then
        input=$top/${words[-1]}
        words=("${words[@]:0:${#words[@]}-2}")
    fi
    printf '%s\n' "${words[@]:1}" >"$room/words"
    example=$(example_of "$input")
    local case=$room/cases/${name##*/}
    case ${words[1]} in
    steps | outcomes | recorded) case=$room/tools/${name##*/} ;;
    whatif)
        if [ -z "$example" ]; then fails "$(<"$name.command"): no example has these words"; return; fi
        wants "$(<"$name.command"): examples/${example##*/}.out is not what is printed" is_excerpt "$name.printed" "$example.out"
        return
        ;;
    esac
    cp "$room/words" "$case.args"
    cat "$input" >"$case"
    if [ -n "$example" ]; then
        cp "$example.out" "$case.stdout"
        if [ -f "$example.status" ]; then cp "$example.status" "$name.status"; fi
        wants "$(<"$name.command"): examples/${example##*/}.out is not what is printed" is_excerpt "$name.printed" "$example.out"
    else
        cp "$name.printed" "$case.stdout"
    fi
}

mkdir "$room/cases" "$room/tools"
take_commands "$top/README.md" README
take_commands "$top/docs/TEACH.md" TEACH
take_commands "$top/docs/RECORDED.md" RECORDED
for command in "$room"/*.command; do
    read -r word other _ <"$command"
    case $word in
    ./slub) if [ "$other" != --build ]; then lay_case "${command%.command}"; fi ;;
    */*) wants "$word can't be run" [ -x "$top/$word" ] ;;
    esac
done

# A command in the midst of a sentence is one of those that are tried.
grep -ohE '`\./slub [a-z][^`]*`' "$top/README.md" "$top/docs/TEACH.md" | tr -d '`' >"$room/told"
while read -r told; do
    wants "$told is told, and not tried" grep -qxF -- "$told" "$room"/*.command
done <"$room/told"

"$top/tests/run-cases" "$room/cases" ${1+"$1"} >"$room/results" 2>"$room/log"
CRATE=slub_tools "$top/tests/run-cases" "$room/tools" ${2+"$2"} >>"$room/results" 2>>"$room/log"
for case in "$room"/cases/*.stdout "$room"/tools/*.stdout; do
    name=$(basename "$case" .stdout)
    wanted=$(cat "$room/$name.status" 2>/dev/null || echo 0)
    result=$(sed -n "s/^$name //p" "$room/results")
    wants "$(<"$room/$name.command"): wanted $wanted expected, got ${result:-nothing}" [ "$result" = "$wanted expected" ]
done
if [ "$failed" != 0 ]; then cat "$room/log" >&2; fi

# What the documents name, one name a line: files of the repository, and crates.
names() { grep -ohE "$1" "$top"/*.md "$top"/docs/*.md "$top"/bench/*.md | sort -u; }
for file in $(names '\b(docs|examples|tests|bench)/[A-Za-z_-]+(\.[a-z_0-9]+)*'); do
    wants "the documents name $file, which isn't here" [ -e "$top/$file" ]
done
for crate in $(names '\bslub_[a-z_]+' | grep -vxE 'slub_law_|slub_(cpu_dead|debug|out_of_memory|set_cpu_partial)'); do
    wants "the documents name $crate, which is no crate" grep -q "^$crate:" "$top/crates.txt"
done
echo "tests/documents.sh: $passed passed, $failed failed"
[ "$failed" = 0 ]
