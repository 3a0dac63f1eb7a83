#!/usr/bin/env bash
# examples.sh [SLUB [TOOLS]]: each examples/NAME.out against what the program writes: for the words of NAME.args, one a
# line (without it: replay --replies), the input NAME.trace or NAME.recording (without either: none) and the status of NAME.status
# (without it: 0). One trace may stand for several names: of TRACE.WAY it is TRACE.trace, and where TRACE.recording is here,
# the trace that is made of it, TRACE.out. Where the first word is steps, outcomes or recorded, the program is slub_tools, and slub
# else. A program that isn't given is made by `rt try`, unproved, in about a minute. Where the first word is whatif, it is the
# script ./slub with both programs; these examples are skipped where the two aren't given, or there is no awk.
top=$(cd "$(dirname "${BASH_SOURCE[0]}")/.." && pwd) || exit 2
room=$(mktemp -d) || exit 2
trap 'rm -rf "$room"' EXIT
passed=0
failed=0

# One folder for each program, with a file NAME, NAME.args and NAME.stdout for each example, as tests/run-cases reads it.
mkdir "$room/slub" "$room/tools" "$room/whatif"
for out in "$top"/examples/*.out; do
    example=${out%.out}
    program=slub
    if [ -f "$example.args" ]; then
        case $(head -1 "$example.args") in steps | outcomes | recorded) program=tools ;; whatif) program=whatif ;; esac
    fi
    case=$room/$program/${example##*/}
    cp "$out" "$case.stdout"
    trace=$example.trace
    [ -f "$trace" ] || trace=${example%.*}.trace
    [ -f "$trace" ] || trace=$example.recording
    if [ ! -f "$trace" ] && [ -f "${example%.*}.recording" ]; then trace=${example%.*}.out; fi
    if [ $program = whatif ]; then trace=; fi
    if [ -f "$trace" ]; then cp "$trace" "$case"; else : >"$case"; fi
    if [ -f "$example.args" ]; then cp "$example.args" "$case.args"; else printf 'replay\n--replies\n' >"$case.args"; fi
done

"$top/tests/run-cases" "$room/slub" ${1+"$1"} >"$room/results" 2>"$room/log"
CRATE=slub_tools "$top/tests/run-cases" "$room/tools" ${2+"$2"} >>"$room/results" 2>>"$room/log"
skipped=
if [ $# != 2 ]; then
    skipped="the programs aren't built"
elif ! command -v awk >/dev/null; then
    skipped="there is no awk"
else
    # A copy of the script that has the given programs for its own, and its name, since run-cases copies what it runs.
    mkdir -p "$room/clone/crates/slub/out" "$room/clone/crates/slub_tools/out"
    cp "$top/slub" "$room/clone/slub"
    cp "$1" "$room/clone/crates/slub/out/slub"
    cp "$2" "$room/clone/crates/slub_tools/out/slub_tools"
    touch "$room/clone/crates.txt" "$room/clone/HANDLES"
    "$room/clone/slub" --adopt "$("$room/clone/slub" --sources)"
    printf '#!/usr/bin/env bash\nexec "%s" "$@"\n' "$room/clone/slub" >"$room/script"
    (cd "$top" && "$top/tests/run-cases" "$room/whatif" "$room/script") >>"$room/results" 2>>"$room/log"
fi
for out in "$top"/examples/*.out; do
    name=$(basename "$out" .out)
    if [ -n "$skipped" ] && [ -f "$room/whatif/$name" ]; then
        echo "tests/examples.sh: $name: skipped, since $skipped"
        continue
    fi
    wanted=$(cat "$top/examples/$name.status" 2>/dev/null || echo 0)
    if grep -qx "$name $wanted expected" "$room/results"; then
        passed=$((passed + 1))
    else
        failed=$((failed + 1))
        result=$(sed -n "s/^$name //p" "$room/results")
        echo "tests/examples.sh: $name: wanted $wanted expected, got ${result:-nothing}" >&2
    fi
done
for trace in "$top"/examples/*.trace "$top"/examples/*.recording; do
    outputs=("${trace%.*}.out" "${trace%.*}".*.out)
    [ -f "${outputs[0]}" ] || [ -f "${outputs[1]}" ] && continue
    failed=$((failed + 1))
    echo "tests/examples.sh: no output stands beside $(basename "$trace")" >&2
done
if [ "$failed" != 0 ]; then cat "$room/log" >&2; fi
echo "tests/examples.sh: $passed passed, $failed failed"
[ "$failed" = 0 ]
