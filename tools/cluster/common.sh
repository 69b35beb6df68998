# What the tests of the engines share: a tour in eight parts and the frontier of a cut in sixteen, whose answers on one machine are known.
# Source it with TOOLS and ROOM set. VERTICES and WIDTH make another cut, or another search of it.
PARTS=8
CUT_PARTS=16
VERTICES=${VERTICES:-50}
WIDTH=${WIDTH:-100}
SCRIPTS=$(readlink -f "$TOOLS/../../examples/cluster")
built=$(readlink -m "$TOOLS/../../crates/solver_cli/out/solver_cli")
PROGRAM=${HAMMOCKDOVE:-$built}
command -v "$PROGRAM" >/dev/null || { echo "skipped: no program is built; rt ci builds it, or HAMMOCKDOVE names it"; echo "0 passed, 0 failed"; exit 0; }
passed=0 failed=0

# Counts a claim: its name, and a command that shows it.
claim() {
    local name=$1
    shift
    if "$@"; then
        passed=$((passed + 1))
        echo "well, after $SECONDS s: $name"
    else
        failed=$((failed + 1))
        echo "FAILED, after $SECONDS s: $name"
    fi
}

# Waits until a command succeeds, at most MOST seconds.
MOST=300
until_true() {
    local end=$((SECONDS + MOST))
    until "$@"; do
        [ $SECONDS -lt $end ] || return 1
        sleep 0.3
    done
}

# A program that takes some seconds for a part, so that there is time to disturb it; the file `seconds` has their number. Each part that begins
# gets a line in the file `begun`: the number of its process, its index, the bytes of its journal, and the value of the solution that it is
# offered, or `none`. The part of a journal finishes some subproblems before it waits.
make_slow() {
    cat >"$ROOM/slow" <<END
#!/bin/bash
words="\$*"
case "\$words" in
    solve*" --part "*) part=\${words#*--part } part=\${part%%/*} bytes=0 ;;
    resume*/part-*) part=\${2##*/part-} part=\$((10#\${part%%-*})) bytes=\$(stat -c %s "\$2") ;;
    *) exec "$PROGRAM" "\$@" ;;
esac
offer=none
case "\$words" in
    *" --incumbent"*)
        cat >"$ROOM/part-\$part.offer"
        exec <"$ROOM/part-\$part.offer"
        offer=\$(sed -n 's/^value //p' "$ROOM/part-\$part.offer")
        ;;
esac
echo "\$\$ \$part \$bytes \$offer" >>"$ROOM/begun"
[ "\$bytes" = 0 ] || "$PROGRAM" resume "\$2" --budget 3 --width $WIDTH >"$ROOM/part-\$part.first"
sleep "\$(cat "$ROOM/seconds")"
exec "$PROGRAM" "\$@"
END
    chmod 755 "$ROOM/slow"
    echo "$1" >"$ROOM/seconds"
    : >"$ROOM/begun"
    export HAMMOCKDOVE=$ROOM/slow
}

# The instance, and the first two lines of its report on one machine.
"$PROGRAM" generate tsptw 12 3 >"$ROOM/tour.txt" || exit 1
wanted=$("$PROGRAM" solve tsptw <"$ROOM/tour.txt" | head -n 2)

# Has the journal of a stopped search of a cut, with its heaviest vertices first and an open subproblem for each part, and has the answer of
# one machine as the wanted one. It fails where the program does not split journals.
stop_cut() {
    [ "$("$PROGRAM" split "$ROOM/none" --part 0/1)" != "words usage" ] || { echo "skipped: the parts of a journal, since the program has no word split"; return 1; }
    "$PROGRAM" generate maxcut "$VERTICES" 1 >"$ROOM/drawn.txt" || exit 1
    "$TOOLS/../reorder.py" maxcut "$ROOM/drawn.txt" >"$ROOM/cut.txt" || exit 1
    wanted=$("$PROGRAM" solve maxcut --width "$WIDTH" <"$ROOM/cut.txt" | head -n 2)
    local budget=1
    while :; do
        rm -f "$ROOM/cut.journal"
        "$PROGRAM" solve maxcut --width "$WIDTH" --budget $budget --journal "$ROOM/cut.journal" <"$ROOM/cut.txt" >"$ROOM/cut.stopped"
        grep -q '^stopped' "$ROOM/cut.stopped" || { echo "the cut ends before it has $CUT_PARTS open subproblems" >&2; exit 1; }
        # Of part 15 the Snapshot lists a subproblem where there are sixteen.
        "$PROGRAM" split "$ROOM/cut.journal" --part $((CUT_PARTS - 1))/$CUT_PARTS >"$ROOM/last.journal"
        "$PROGRAM" resume "$ROOM/last.journal" --budget 0 >"$ROOM/last.stopped"
        ! grep -q '^stopped' "$ROOM/last.stopped" || return 0
        budget=$((budget * 2))
    done
}

# Whether the joined answer in a folder is that of one machine, and is accepted.
is_answer() { [ "$(head -n 2 "$1/joined.txt" 2>/dev/null)" = "$wanted" ]; }
is_accepted() { [ "$("$PROGRAM" check <"$1/joined.txt")" = accepted ]; }

# How many parts have begun so far, the N-th of them (the number of its process, and its index), how often a part has begun, whether its
# journal had grown when it began again, and whether it has finished some subproblems.
parts_begun() { [ "$(wc -l <"$ROOM/begun")" -ge "$1" ]; }
begun_part() { sed -n "$1"'s|^\([0-9]*\) \([0-9]*\) .*|\1 \2|p' "$ROOM/begun"; }
tries() { grep -c "^[0-9]* $1 " "$ROOM/begun"; }
goes_on() { awk -v part="$1" '$2 == part { if (!first) first = $3; last = $3 } END { exit !(first < last) }' "$ROOM/begun"; }
has_finished() { [ -s "$ROOM/part-$1.first" ]; }

# Whether at least N parts, and the last one, were offered a solution as they began, and whether each of them tells a value that is no less.
were_offered() { [ "$(grep -vc ' none$' "$ROOM/begun")" -ge "$1" ] && [ "$(tail -n 1 "$ROOM/begun" | cut -d ' ' -f 4)" != none ]; }
have_taken() {
    local part offer value
    while read -r _ part _ offer; do
        [ "$offer" != none ] || continue
        value=$(sed -n 's/^value //p' "$1/$(printf 'part-%04d-of-%04d' "$part" "$CUT_PARTS").txt")
        [ "$value" -ge "$offer" ] || return 1
    done <"$ROOM/begun"
}

# Ends the daemons of a Slurm in the room; its files are kept where a claim failed.
clean() {
    [ ! -d "$ROOM/slurm" ] || "$TOOLS/slurm-down" "$ROOM/slurm"
    if [ "$failed" -eq 0 ]; then rm -rf "$ROOM"; else echo "the files are in $ROOM" >&2; fi
}
trap clean EXIT

finish() {
    echo "$passed passed, $failed failed"
    [ "$failed" -eq 0 ]
    exit
}
