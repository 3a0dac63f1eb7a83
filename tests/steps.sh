#!/usr/bin/env bash
# steps.sh SLUB TOOLS: `steps` of slub_tools beside `replay` of slub. Of each example that is replayed by schedule, the log without
# its own lines must be what the replay prints, with its status. Then a table: words, and how such a run must end. Without
# the two programs the script says so and ends with 0.
top=$(cd "$(dirname "${BASH_SOURCE[0]}")/.." && pwd) || exit 2
if [ $# != 2 ]; then
    echo "tests/steps.sh: skipped, since the programs aren't built"
    exit 0
fi
slub=$(realpath "$1") tools=$(realpath "$2")
room=$(mktemp -d) || exit 2
trap 'rm -rf "$room"' EXIT
passed=0
failed=0

wants() {
    if "${@:2}"; then passed=$((passed + 1)); else
        failed=$((failed + 1))
        echo "tests/steps.sh: $1" >&2
    fi
}

# A log without its own lines.
replies() {
    sed -E '/^$/d; /^ /d; /^slubsteps 1$/d; /^machine [0-9]+ [0-9]+ tid /d; /^seed [0-9]+$/d; /^picks [^ ]*$/d
            /^round [0-9]+, workers [0-9]+$/d; /^state (before|after) round [0-9]+$/d; /^end of round [0-9]+: turns /d' "$1"
}

# The log by this seed against the replay by it.
is_replay() {
    local wanted status
    "$slub" replay --replies --how schedule --seed "$2" <"$1" >"$room/replay"
    wanted=$?
    "$tools" steps --seed "$2" <"$1" >"$room/log"
    status=$?
    [ "$status" = "$wanted" ] && replies "$room/log" | cmp -s - "$room/replay"
}

# The turns of a round, taken over from its line `picks`, must be the same run.
is_taken_over() {
    local picks
    "$tools" steps --seed "$2" <"$1" >"$room/log"
    picks=$(sed -nE 's/^picks ([^ ]*)$/\1/p' "$room/log" | paste -sd/)
    [ -z "$picks" ] && return
    "$tools" steps --picks "$picks" <"$1" >"$room/again"
    cmp -s <(tail -n +4 "$room/log") <(tail -n +4 "$room/again")
}

for trace in "$top"/examples/*.trace; do
    for seed in 1 2 18446744073709551615; do
        name=$(basename "$trace")
        wants "$name, seed $seed: the log isn't the replay with steps" is_replay "$trace" "$seed"
        wants "$name, seed $seed: the picks of the log are another run" is_taken_over "$trace" "$seed"
    done
done

# The last line and the status of a run: ends STATUS LINE WORDS.., on the trace $trace.
ends() {
    local status
    "$tools" steps "${@:3}" <"$trace" >"$room/log"
    status=$?
    [ "$status" = "$1" ] && [ "$(tail -1 "$room/log")" = "$2" ]
}
# The same, where that line stands alone.
is_alone() { ends "$@" && [ "$(wc -l <"$room/log")" = 1 ]; }

trace=$top/examples/race.trace
while read -r words; do
    wants "steps $words is no bad command" eval "is_alone 2 'slub: bad command' $words"
done <<'END'
--seed
--seed 01
--seed 18446744073709551616
--seed -1
--seed 1 --seed 1
--seed 1 --picks 0
--picks
--picks=
--picks 16
--picks 0:0
--picks 0:4294967296
--picks 0:
--picks 0:turn
--picks 0,,1
--picks 00
--round 0
--round 257
--round
--page --page
--page=1
--how schedule
--
1
END
while IFS='|' read -r words line; do
    wants "steps $words doesn't end with $line" eval "ends 8 '$line' $words"
done <<'END'
--picks 2|slub: pick 1: no worker 2 in round 2
--picks 0,1:3,15:end|slub: pick 3: no worker 15 in round 2
--picks 0:end,0|slub: pick 2: worker 0 has no event left in round 2
--picks 0:999|slub: pick 1: worker 0 has no event left in round 2
--picks 0:end,0:event|slub: pick 2: worker 0 has no event left in round 2
--picks 0:3|slub: picks end in round 2 after 3 turns
--picks /|slub: picks end in round 2 after 0 turns
--picks 0:end,1:end/0|slub: picks for 2 rounds, there are 1
--picks 0:end,1:end,0:end/|slub: picks for 2 rounds, there are 1
--round 3|slub: no round 3
--round 3 --picks 0:end,1:end|slub: no round 3
END
wants "parts behind the round that is asked for are a fault" ends 1 'alloc 3: given 4288' --round 2 --picks 0:end,1:end/0
wants "an option's value doesn't stand behind =" ends 1 'alloc 3: given 4288' --round=2 --picks=0:end,1:end

trace=$room/bad.trace
echo 'slubtrace 5' >"$trace"
wants "bytes that are no trace" is_alone 3 'slub: line 1: bad form'
wants "bytes that are no trace have a page" is_alone 3 'slub: line 1: bad form' --page

# Two workers each make a first slab. Worker 1 comes to the node's lock while worker 0 has it: its entry ends there.
trace=$room/lock.trace
printf 'slubtrace 1\nmachine 16 2\ncache dentry 192 8 -\nround 2\nalloc 0 0 dentry 1\nalloc 1 1 dentry 2\ndone\nend\n' >"$trace"
waits() { ends "$@" && grep -qE '^end of round 1: turns [0-9]+, exchanges lost 0, waits for a lock 1$' "$room/log"; }
total='total given 2 freed 0 live 2 free 40 aside 0 frozen 2 slabs 2 frames 13'
wants "W:event doesn't stop at a lock" waits 0 "$total" --picks 0:3,1:event,0:end,1:end
wants "W:end doesn't stop at a lock" waits 0 "$total" --picks 0:3,1:end,0:end,1:end
wants "W:N stops at a lock" eval "ends 0 '$total' --picks 0:3,1:5,0:end,1:end && grep -q 'waits for a lock 3$' $room/log"

# A CPU's partial list has three slabs. Worker 0 takes them all; worker 1 pushes a slab of its own before worker 0 puts back the
# two that it doesn't need: three slabs, these two before the pushed one.
trace=$room/rest.trace
{
    printf 'slubtrace 1\nmachine 64 2\ncache big 16384 0 -\nround 1\n'
    printf 'alloc 0 0 big %d\n' {1..10}
    printf 'free 0 0 1\nfree 0 0 3\nfree 0 0 5\ndone\nround 2\nalloc 0 0 big 11\nfree 1 0 7\ndone\nend\n'
} >"$trace"
puts_back() { ends "$@" && [ "$(grep '^  list 0 big ' "$room/log" | tail -1)" = '  list 0 big      front 16 count 3 slabs 16 8 32' ]; }
total='total given 11 freed 4 live 7 free 3 aside 0 frozen 1 slabs 5 frames 23'
wants "a string that is put back doesn't stand before a pushed slab" puts_back 0 "$total" --picks 0:7,1:end,0:end

# Worker 0 frees into a slab that is no CPU's, and then allocates: a remote free, a detach, a take-all and an install. Worker 1
# frees an object between each two steps, of worker 0's slabs among others, and no exchange is lost.
trace=$room/between.trace
{
    printf 'slubtrace 1\nmachine 16 2\ncache dentry 192 8 -\nround 1\n'
    printf 'alloc 0 0 dentry %d\n' {1..63}
    printf 'free 0 0 1\nfree 0 0 22\ndone\nround 2\nfree 0 0 2\nalloc 0 0 dentry 64\n'
    printf 'free 1 1 %d\n' 23 24 25 26 27 43 44 28 45 29 30 46
    printf 'done\nend\n'
} >"$trace"
# The spots that worker 0 comes by in the last round, and no lost exchange.
comes_by() {
    ends 0 "${@:2}" && grep -qF "end of round 2: turns 72, exchanges lost 0, waits for a lock 0" "$room/log" &&
        [ "$(sed '1,/^round 2,/d' "$room/log" | sed -nE 's/^ +[0-9]+  0\.  [a-z]+ [0-9]+ +([A-Za-z]+) .*/\1/p' | xargs)" = "$1" ]
}
spots='TakeBoard LoadOwn LoadSlab LinkSlab FreeSlab LoadCpu Detach LoadTaken TakeAll LoadReady LoadAgain Install'
total='total given 64 freed 15 live 49 free 14 aside 0 frozen 1 slabs 3 frames 12'
between=$(printf '0,1:event,%.0s' {1..12})
wants "a remote free, a detach, a take-all and an install with frees in between" comes_by "$spots" "$total" --picks "${between}0:end,1:end"

echo "tests/steps.sh: $passed passed, $failed failed"
[ "$failed" = 0 ]
