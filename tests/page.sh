#!/usr/bin/env bash
# page.sh [FOLDER]: makes a page of page/sample.log, of each log of page/samples and of examples, and of each FOLDER/*.stdout, and opens
# it in headless Chromium with `#check`: the page replays each round against the state that is printed after it, looks that each object is in
# one place after each turn, and presses its keys. A log with one word changed must differ. How long a key takes is printed.
# The texts that the program holds for its pages must be those of page/, and where it is built, its pages of the examples must be
# those that page/make makes of the logs. Without Chromium the same check runs in node, but for the keys; without either
# the script says so and ends with 0.
top=$(cd "$(dirname "${BASH_SOURCE[0]}")/.." && pwd) || exit 2
room=$(mktemp -d) || exit 2
trap 'rm -rf "$room"' EXIT
passed=0
failed=0

chromium=$(command -v chromium || command -v chromium-browser || command -v google-chrome)
# What Chromium makes of a page of the room in so many seconds, as text. That one may read another one there is for this test alone.
dump() {
    timeout "$2" "$chromium" --headless --no-sandbox --disable-gpu --allow-file-access-from-files --user-data-dir="$room/profile" \
        --dump-dom "file://$room/$1" 2>/dev/null
}
if [ -n "$chromium" ]; then
    echo '<title>it starts</title>' >"$room/empty.html"
    if ! dump empty.html 40 | grep -q 'it starts'; then
        echo "tests/page.sh: $chromium doesn't start here" >&2
        chromium=
    fi
fi
if [ -z "$chromium" ]; then
    if ! command -v node >/dev/null; then
        echo "tests/page.sh: skipped, since there is neither chromium nor node"
        exit 0
    fi
    echo "tests/page.sh: no chromium: the logs are checked in node, and keys and drawing aren't"
fi

# Opens the pages of these names with `#check`, and writes for each its lines check=.., and where they are there ms=.. and differs=..
open_all() {
    local name
    if [ -n "$chromium" ]; then
        {
            echo '<!DOCTYPE html><meta charset="utf-8"><pre></pre>'
            for name in "$@"; do echo "<iframe name=\"$name\" width=1440 height=1000 src=\"$name.html#check\"></iframe>"; done
            cat <<'END_OF_SCRIPT'
<script>
addEventListener('load', () => {
    for (const frame of document.querySelectorAll('iframe'))
        for (const [key, value] of Object.entries(frame.contentDocument.body.dataset))
            document.querySelector('pre').append(`found ${frame.name} ${key}=${value.replaceAll('\n', ' ')}\n`);
});
</script>
END_OF_SCRIPT
        } >"$room/all.html"
        dump all.html 100 >"$room/all.found"
        for name in "$@"; do sed -n "s/^.*found $name //p" "$room/all.found" >"$room/$name.found"; done
        if grep -qE 'found [a-z]+[0-9]* [a-z]+=' "$room/all.found" || ! command -v node >/dev/null; then return; fi
        echo "tests/page.sh: $chromium gave no answer: the logs are checked in node, and keys and drawing aren't"
        chromium=
    fi
    for name in "$@"; do
        node - "$room/$name.html" >"$room/$name.found" <<'END_OF_NODE'
const page = require('fs').readFileSync(process.argv[2], 'utf8'), behind = (text, mark) => text.slice(text.indexOf(mark) + mark.length);
const text = behind(page, 'id="log">').split('</script>')[0], code = behind(behind(page, 'id="log">'), '<script>').split('</script>')[0];
const found = new Function(`${code}\nreturn checkLog;`)()(text);
console.log(`check=${found.rounds} rounds, ${found.turns} turns, ${found.bad.length} differ`);
if (found.bad.length) console.log(`differs=${found.bad.slice(0, 20).join(' ')}`);
END_OF_NODE
    done
}

# What the page must find, by the lines of the log alone.
wanted() {
    local rounds turns keys=
    rounds=$(grep -cE '^round [0-9]+, workers [0-9]+$' "$1")
    turns=$(grep -cE '^ +[0-9]+  [.0-9a-f]+  [a-z]' "$1")
    [ -n "$chromium" ] && keys=', keys ok'
    echo "check=$rounds rounds, $turns turns, 0 differ$keys"
}

# The last number that a step leaves in its word, one more.
change() {
    awk '{ line[NR] = $0 }
         / (exchange won|store|swap) .*->[0-9]/ { at = NR }
         END { for (i = 1; i <= NR; i++) {
                   text = line[i]
                   if (i == at && match(text, /->[0-9]+/))
                       text = substr(text, 1, RSTART + 1) (substr(text, RSTART + 2, RLENGTH - 2) + 1) substr(text, RSTART + RLENGTH)
                   print text } }' "$1"
}

# A log of 2,016 turns: two workers each allocate and free on a CPU of their own, and 60 slabs are full.
long() {
    awk 'function turn(w, event, spot, by, word, step, says) {
             printf "%6d  %s  %-9s %-13s %-22s %-16s %-13s %s\n", ++turns, w ? ".1" : "0.", event, spot, by, word, step, says }
         function answer(w, text) { printf "     =  %s  %s\n", w ? ".1" : "0.", text }
         function state(a, b, i) {
             print "  pool            none"
             print "  cache buf       size 64 left_pad 0 order 0 objects 64 min_order 0 min_partial 5 cpu_partial_slabs 4 names buf"
             printf "  cpu 0 buf       tid %d slab 1 head 0 freelist 0..63\n", a
             printf "  cpu 1 buf       tid %d slab 2 head 0 freelist 0..63\n", b
             print "  node buf        slabs none"
             for (i = 1; i <= 62; i++)
                 printf "  %-15s head none inuse 64 objects 64 frozen %d listed 0 freelist none\n", "slab " i, i < 3
             for (i = 0; i < 60; i++) printf "  %-15s %d.0..63\n", "board " 64 * i + 1 ".." 64 * i + 64, i + 3 }
         BEGIN {
             calls = 168
             print "slubsteps 1\nmachine 63 2 tid 0 step 2\nseed 1\n\nround 1, workers 2"
             for (i = 0; i < calls; i++) for (w = 0; w < 2; w++) {
                 o = 4000 + 2 * i + w
                 printf "  alloc %d %d buf %d\n  free %d %d %d\n", w, w, o, w, w, o
                 replies = replies sprintf("alloc %d: given %d\nfree %d: freed %d\n", o, 4096 * (w + 1), o, 4096 * (w + 1)) }
             print "state before round 1"
             state(0, 1)
             print "\n  turn  01  event     spot          function               word             step          what it says"
             for (i = 0; i < calls; i++) for (k = 0; k < 6; k++) for (w = 0; w < 2; w++) {
                 o = 4000 + 2 * i + w; id = 4 * i + w; cpu = "cpu " w " buf"; next_ = "next " w + 1 ".0"; at = 4096 * (w + 1) " at " w + 1 ".0"
                 if (k == 0) turn(w, "alloc " o, "LoadCpu", "slab_alloc_node", cpu, "load", "tid " id " slab " w + 1 " head 0")
                 if (k == 1) turn(w, "alloc " o, "LoadNext", "get_freepointer_safe", next_, "load", "1")
                 if (k == 2) { turn(w, "alloc " o, "Pop", "slab_alloc_node", cpu, "exchange won", "tid " id "->" id + 2 " slab " w + 1 " head 0->1")
                               answer(w, "alloc " o ": given " at) }
                 if (k == 3) turn(w, "free " o, "LoadOwn", "do_slab_free", cpu, "load", "tid " id + 2 " slab " w + 1 " head 1")
                 if (k == 4) turn(w, "free " o, "LinkOwn", "set_freepointer", next_, "store", "->1")
                 if (k == 5) { turn(w, "free " o, "Push", "do_slab_free", cpu, "exchange won", "tid " id + 2 "->" id + 4 " slab " w + 1 " head 1->0")
                               answer(w, "free " o ": freed " at) }
                 picks = picks (turns > 1 ? "," : "") w }
             print "\nstate after round 1"
             state(4 * calls, 4 * calls + 1)
             printf "end of round 1: turns %d, exchanges lost 0, waits for a lock 0\npicks %s\n%s", turns, picks, replies }'
}

names=()
page_of() {
    "$top/page/make" <"$2" >"$room/$1.html" || exit
    names+=("$1")
}
case_is() {
    local what=$1
    shift
    if "$@"; then passed=$((passed + 1)); else
        failed=$((failed + 1))
        echo "tests/page.sh: $what" >&2
    fi
}
finds() { [ "$(grep '^check=' "$room/$1.found")" = "$(wanted "$2")" ] || { cat "$room/$1.found" >&2; false; }; }
differs() { grep -qE '^check=.* [1-9][0-9]* differ' "$room/$1.found"; }
is_whole() { cat "$room/front" "$2" "$room/back" | cmp -s - "$room/$1.html"; }
has_none() { ! grep -nE 'https?:|src=|\b(import|fetch|XMLHttpRequest|localStorage|sessionStorage|indexedDB|cookie)\b' "$room/$1.html" >&2; }

logs=("$top/page/sample.log" "$top"/page/samples/*.log)
ours=${#logs[@]}
logs+=("$top"/examples/*.steps.out)
if [ -n "$1" ]; then logs+=("$1"/*.stdout); fi
"$top/page/make" front >"$room/front" && "$top/page/make" back >"$room/back" || exit
long </dev/null >"$room/long.log"
page_of long "$room/long.log"
for i in "${!logs[@]}"; do
    page_of "log$i" "${logs[i]}"
    if [ "$i" -lt "$ours" ]; then
        change "${logs[i]}" >"$room/changed$i.log"
        page_of "changed$i" "$room/changed$i.log"
    fi
done
open_all "${names[@]}"

for i in "${!logs[@]}"; do
    name=$(basename "${logs[i]}")
    case_is "$name: what its page finds" finds "log$i" "${logs[i]}"
    case_is "$name: its page is front, log and back" is_whole "log$i" "${logs[i]}"
    if [ "$i" -lt "$ours" ]; then case_is "$name, a word changed: its page finds nothing" differs "changed$i"; fi
done
case_is "a long log: what its page finds" finds long "$room/long.log"
if [ -n "$chromium" ]; then echo "tests/page.sh: at 2,016 turns a key takes $(sed -n 's/^ms=//p' "$room/long.found") ms (100 are meant)"; fi
is_held() { "$top/page/make" program "$room/held" && diff -r "$room/held" "$top/crates/slub_tools/src/page" >&2; }
case_is "crates/slub_tools/src/page isn't what page/make program makes" is_held
tools=$top/crates/slub_tools/out/slub_tools
is_page() {
    local words
    mapfile -t words <"$1.steps.args"
    "$tools" "${words[@]}" --page <"$1.trace" >"$room/program.html"
    "$top/page/make" <"$1.steps.out" | cmp -s - "$room/program.html"
}
if [ -x "$tools" ]; then
    for args in "$top"/examples/*.steps.args; do
        case_is "$(basename "$args"): the program's page isn't that of page/make" is_page "${args%.steps.args}"
    done
else
    echo "tests/page.sh: the pages that the program makes weren't looked at, since it isn't built"
fi
case_is "the page has something of the network or stores something" has_none log0

echo "page: $passed passed, $failed failed"
[ "$failed" = 0 ]
