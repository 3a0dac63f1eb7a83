#!/usr/bin/env bash
# Tries the script ./slub: which program it runs, what reaches it, and what comes back. A small repository with
# the script and an `rt` that builds and proves nothing stand in for the real ones; the last line counts the cases.
top=$(cd "$(dirname "${BASH_SOURCE[0]}")/.." && pwd) || exit 2
room=$(mktemp -d) || exit 2
trap 'rm -rf "$room"' EXIT
passed=0
failed=0

# A program that says what reached it, and ends with the status that its input names. For whatif, where there are ROWS: of two
# groups of caches `recorded` makes a trace that holds only its words, and `replay` of that prints the rows of these words.
mkdir -p "$room/bin" "$room/calls"
cat >"$room/bin/program" <<'END'
#!/usr/bin/env bash
cat >"$CALLS/input"
if [ -f "$CALLS/rows" ]; then
    case $1 in
    recorded)
        if grep -qxF "words ${*:2}. is bad" "$CALLS/rows"; then
            echo "slub: bad words ${*:2}"
            exit 3
        fi
        echo '# groups: 2'
        echo "words ${*:2}."
        exit
        ;;
    replay)
        words=$(grep '^words ' "$CALLS/input")
        printf 'slabinfo - version: 2.1\n# name\n'
        awk -v words="$words" '
            $0 == words { inside = 1; next }
            /^words / { inside = 0 }
            inside { print $1, $2, $3, "64 64", $4, ": tunables 0 0 0 : slabdata", $5, $5, 0 }' "$CALLS/rows"
        ! grep -qxF "$words is refused" "$CALLS/rows"
        exit
        ;;
    esac
fi
echo "${0##*/} got $*"
read -r _ status <"$CALLS/input"
exit "${status:-0}"
END
# What rt does as far as the script sees it: `run` builds anew only where a source's text changed, and `try`
# builds nothing that stays; the program's text comes on standard output and all else on standard error.
cat >"$room/bin/rt" <<'END'
#!/usr/bin/env bash
echo "$*" >>"$CALLS/rt"
[ -f "$CALLS/refuse" ] && { echo "error: not proved" >&2; exit 1; }
case $1 in
run)
    text=$(cat src/main.rt)
    name=${PWD##*/}
    if [ "$(cat out/text 2>/dev/null)" != "$text" ]; then
        mkdir -p out && cp "$BIN/program" "out/$name" && echo "$text" >out/text
    fi
    echo "rt: running out/$name" >&2
    while [ "$1" != -- ]; do shift; done
    exec "out/$name" "${@:2}"
    ;;
try)
    [ -f "$CALLS/hang" ] && { echo "run=none proved=no" >&2; exit 6; }
    while [ "$1" != -- ]; do shift; done
    "$BIN/program" "${@:2}"
    status=$?
    printf 'checked: ended status=%s\nrun=ended status=%s runners=1 proved=no\n' $status $status >&2
    exit $status
    ;;
esac
exit 2
END
chmod +x "$room/bin/program" "$room/bin/rt"
export CALLS=$room/calls BIN=$room/bin PATH=$room/bin:$PATH

mkdir -p "$room/clone/crates/slub/src" "$room/clone/crates/slub_tools/src"
cd "$room/clone" || exit 2
cp "$top/slub" .
echo 'fn main() {}' >crates/slub/src/main.rt
echo 'fn main() {}' >crates/slub_tools/src/main.rt
printf 'slub:\nslub_tools:\n' >crates.txt
echo 'Handles allowed: none.' >HANDLES
echo 'out/' >.gitignore
printf 'replay\n--replies\n' >crates/slub/args
printf 'status 0\n' >crates/slub/stdin
echo 'slub got replay --replies' >crates/slub/stdout
printf 'outcomes\n' >crates/slub_tools/args
printf 'status 0\n' >crates/slub_tools/stdin
echo 'slub_tools got outcomes' >crates/slub_tools/stdout
git() { command git -c user.name=a -c user.email=a@b -c commit.gpgsign=false -c init.defaultBranch=main -c advice.detachedHead=false "$@"; }
git init -q . && git add . && git commit -qm 'A program' || exit 2

# run WORDS..: the script from here, on the input status N of $status; keeps what it wrote and its status.
status=0
run() {
    rm -f "$CALLS/rt"
    printf 'status %s\n' "$status" | "${script:-./slub}" "$@" >"$room/out" 2>"$room/err"
    ended=$?
}

# wants TEXT COMMAND..: one case.
wants() {
    if "${@:2}"; then
        passed=$((passed + 1))
    else
        failed=$((failed + 1))
        echo "tests/slub.sh: not so: $1" >&2
        sed 's/^/    /' "$room/out" "$room/err" >&2
    fi
}
ends() { [ "$ended" = "$1" ]; }
calls() { [ "$(cat "$CALLS/rt" 2>/dev/null)" = "$1" ]; }
wrote() { [ "$(cat "$room/out")" = "$1" ]; }
says() { grep -qe "$1" "$room/err"; }
is_unproved() { calls "try --seconds 600 -- $*" && wrote "program got $*" && says '--build'; }
is_proved() { calls '' && wrote "slub got $*" && [ ! -s "$room/err" ]; }

for word in '' -h --help help; do
    run $word
    wants "the words '$word' print the usage with status 2" ends 2
    wants "the usage comes on standard error, without a build" eval "says '^usage: ' && wrote '' && calls ''"
done

run replay --replies
wants "without a program the words are run unproved" is_unproved replay --replies
wants "one line says so" [ "$(wc -l <"$room/err")" = 1 ]
wants "the whole input reaches it" grep -qx 'status 0' "$CALLS/input"
for status in 1 3 6; do
    run replay
    wants "the status $status of an unproved run is the script's" ends $status
done
status=0
(sleep 3 && echo 'status 4') | ./slub replay >"$room/out" 2>"$room/err"
ended=$?
wants "an input that pauses is read to its end" ends 4
run layout 24 8 - 2
wants "a layout is run unproved" is_unproved layout 24 8 - 2
wants "a layout reads no input" [ ! -s "$CALLS/input" ]
run outcomes --seeds 7
wants "outcomes are run unproved" is_unproved outcomes --seeds 7
wants "their input reaches the program" grep -qx 'status 0' "$CALLS/input"
touch "$CALLS/hang"
run replay
wants "a run without an answer has a status that the program has not" ends 70
wants "it shows what rt said" says '^run=none'
rm "$CALLS/hang"

touch "$CALLS/refuse"
run --build
wants "a build that fails has a status that the program has not" ends 70
wants "it shows what rt said" says 'not proved'
rm "$CALLS/refuse"
run replay
wants "a program that could not be built is not run" is_unproved replay

run --build
wants "--build builds" ends 0
wants "--build never reaches a program" eval "calls \$'run -- replay --replies\nrun -- outcomes' && wrote ''"
run replay --replies
wants "then the proved program runs, without rt" is_proved replay --replies
run outcomes --seeds 7
wants "so does the other one, for outcomes" eval "calls '' && wrote 'slub_tools got outcomes --seeds 7'"
status=1
run replay
wants "its status is the script's" ends 1
status=0

touch crates/slub/src/main.rt crates.txt
run replay
wants "a touched source costs nothing" is_proved replay
touch -d '2001-01-01' crates/slub/out/slub
run replay
wants "the program's date does not count" is_proved replay

echo 'fn main() { }' >crates/slub/src/main.rt
git commit -qam 'Another program'
run replay
wants "another commit is run unproved" is_unproved replay
git checkout -q HEAD~
run replay
wants "coming back to the first costs nothing" is_proved replay
git checkout -q main
run --build layout 24 8 - 2
wants "--build with words builds and then runs them" eval "calls \$'run -- replay --replies\nrun -- outcomes' && wrote 'slub got layout 24 8 - 2'"
run replay
wants "a build after a change is fresh" is_proved replay
echo 'a note' >crates/slub/notes.txt
run replay
wants "a file that no proof reads does not count" is_proved replay
cp "$room/bin/program" crates/slub/out/slub && echo '# another' >>crates/slub/out/slub
run replay
wants "a program that somebody else put there is not run" is_unproved replay
sum=$(./slub --sources)
run --adopt "$sum"
wants "what .ci/run had proved of these sources is taken" ends 0
run replay
wants "and it is run" is_proved replay
echo 'fn main() {  }' >crates/slub/src/main.rt
run --adopt "$sum"
wants "what was proved of other sources is not taken" ends 1
git checkout -q .
run replay
wants "and leaves the mark as it was" is_proved replay

ln -s "$PWD/slub" "$room/link"
clone=$PWD
cd "$room" || exit 2
script=$room/link run replay
wants "a symbolic link and another folder" is_proved replay
script=clone/slub run replay
wants "a call from another folder" is_proved replay
cd "$clone" || exit 2

echo 'status 0' >some.trace
run replay --replies some.trace
wants "a file among the words of a replay ends with status 2" ends 2
wants "it says how the file is read" eval "says 'use < some.trace' && calls ''"
run outcomes some.trace
wants "so does one among the words of outcomes" eval "ends 2 && says 'use < some.trace' && calls ''"
run steps --seed 7 some.trace
wants "and one among the words of steps" eval "ends 2 && says 'use < some.trace' && calls ''"
run recorded some.trace
wants "and one among the words of recorded" eval "ends 2 && says 'use < some.trace' && calls ''"
run whatif
wants "so does whatif without a file" eval "ends 2 && calls ''"
run whatif some.trace
wants "whatif without a setting ends with status 2" eval "ends 2 && calls ''"
run whatif some.trace dentry:speed:3
wants "so does one with a setting that is none" eval "ends 2 && says 'no setting: dentry:speed:3' && calls ''"

# whatif: a row is a name, active and all objects, pages of a slab and slabs.
if command -v awk >/dev/null; then
    mkdir "$room/temporary"
    export TMPDIR=$room/temporary
    cat >"$CALLS/rows" <<'END'
words --group 1.
kmalloc-8 512 512 1 1
dentry 60 63 1 3
filp 16 32 2 2
words --group 1 --tune all:min_partial:0 --tune pid:cpu_partial:7.
kmalloc-8 512 512 1 1
dentry 60 84 1 4
filp 16 16 2 1
words --group 2.
pid 20 32 1 1
task_struct 30 3000 8 1000
words --group 2 --tune all:min_partial:0 --tune pid:cpu_partial:7.
pid 32 32 1 1
task_struct 30 270 8 90
END
    table='cache slabs objects free frames
task_struct 1000->90 3000->270 2970->240 8000->720
dentry 3->4 63->84 3->24 3->4
filp 2->1 32->16 16->0 4->2
pid 1->1 32->32 12->0 1->1
kmalloc-8 1->1 512->512 0->0 1->1'
    has_table() { [ "$(tr -s ' ' <"$room/out")" = "$table" ]; }
    run whatif some.trace all:min_partial:0 pid:cpu_partial:7
    wants "whatif prints the rows of all groups, the greatest changes first" has_table
    wants "its status is 0, and it says nothing else" eval "ends 0 && [ ! -s '$room/err' ]"
    wants "the columns stand below each other" [ "$(cut -c25 "$room/out" | tr -d '\n')" = s13211 ]
    wants "it leaves no file behind" [ -z "$(ls -A "$TMPDIR")" ]
    script=$room/link run whatif some.trace all:min_partial:0 pid:cpu_partial:7
    wants "whatif through a symbolic link" has_table
    run whatif some.trace dentri:min_partial:0
    wants "a setting of no cache is told" says 'the recording has no cache dentri'
    echo 'words --group 2. is refused' >>"$CALLS/rows"
    run whatif some.trace all:min_partial:0 pid:cpu_partial:7
    wants "what a replay refuses is told" eval "ends 1 && has_table && says 'refused in group 2, before the settings'"
    echo 'words --group 2 --tune all:min_partial:4097. is bad' >>"$CALLS/rows"
    run whatif some.trace all:min_partial:4097
    wants "the status of a conversion that fails is the script's, and its line" eval "ends 3 && wrote 'slub: bad words --group 2 --tune all:min_partial:4097'"
    wants "then too no file is left behind" [ -z "$(ls -A "$TMPDIR")" ]
    rm "$CALLS/rows"
    unset TMPDIR
else
    echo "tests/slub.sh: the tables of whatif: skipped, since there is no awk"
fi
touch serial 7
run replay --how serial --seed 7
wants "an option's value is no file" is_proved replay --how serial --seed 7
run outcomes --seeds 7 --from 7 --round 7
wants "nor is one of outcomes" wrote 'slub_tools got outcomes --seeds 7 --from 7 --round 7'
run steps --picks 7 --round 7
wants "nor is one of steps" wrote 'slub_tools got steps --picks 7 --round 7'
run recorded --group 7 --cpus 7 --workers 7 --rounds 7 --tune 7
wants "nor is one of recorded" wrote 'slub_tools got recorded --group 7 --cpus 7 --workers 7 --rounds 7 --tune 7'

script -qec "$PWD/slub replay" /dev/null <<<'status 0' >"$room/err" 2>&1
wants "a replay from a terminal says that it waits" says 'waiting for input'
script -qec "$PWD/slub layout 24 8 - 2" /dev/null </dev/null >"$room/err" 2>&1
wants "a layout from a terminal does not" eval "! says 'waiting for input'"

echo "tests/slub.sh: $passed passed, $failed failed"
[ "$failed" = 0 ]
