#!/bin/sh
# Shows what a crash leaves: a run that ends and a run that is killed in mid-air, what each recovers to, and that the
# killed one is gone on with.
#
#     crash.sh [PROGRAM]
#
# PROGRAM is crates/tpcc/out/tpcc where none is named. Ends with 1 where something isn't as it must be.
set -eu
here=$(cd "$(dirname "$0")" && pwd)
program=${1:-$here/../crates/tpcc/out/tpcc}
# Order numbers for as many New-Orders as 600,000 commits have. Memory goes by the order cap: 0.4 GB at the start.
tables="--warehouses 2 --districts 10 --customers 100 --items 1000 --orders 20000 --commits 600000"
loggers=2

work=$(mktemp -d)
child=
clean() {
    [ -z "$child" ] || kill -9 "$child" 2>/dev/null || true
    rm -rf "$work"
}
trap clean EXIT
trap 'exit 1' HUP INT TERM

fail() {
    echo "crash.sh: $*" >&2
    exit 1
}

# same WHAT FILE OTHER: that two files are the same.
same() {
    if ! diff "$2" "$3" >"$work/difference"; then
        cat "$work/difference" >&2
        fail "not the same: $1"
    fi
    echo "  the same: $1"
}

# number NAME FILE: the number in the line that begins with this name.
number() {
    sed -n "s/^$1 \([0-9]*\)\$/\1/p" "$2"
}

# size FILE ..: how many bytes there are.
size() {
    cat "$@" 2>/dev/null | wc -c
}

# examine DIR: recovers the log files in a folder, checks the conditions, and replays the files by their format alone.
# Leaves what recover and check write in DIR.recovered and DIR.checked.
examine() {
    # shellcheck disable=SC2086 # the options are words
    "$program" recover --logs "$1" --loggers $loggers $tables >"$1.recovered" || fail "recover ended with status $?"
    # shellcheck disable=SC2086
    "$program" check --logs "$1" --loggers $loggers $tables >"$1.checked" || fail "check ended with status $?"
    python3 "$here/replay.py" "$1" $loggers >"$1.replayed" || fail "replay.py ended with status $?"
    echo "  recovered: $(number commits "$1.recovered") commits, up to epoch $(number durable "$1.recovered")"
    [ "$(number commits "$1.checked")" = "$(number commits "$1.recovered")" ] || fail "check counts other commits"
    [ "$(grep -c '^C[0-9]* ok$' "$1.checked")" -eq 11 ] || fail "a condition is broken"
    echo "  check: all eleven conditions are ok"
    same "commits, W_YTD and D_YTD by recover, and by replay.py from the files' format" "$1.recovered" "$1.replayed"
    echo "  replay.py: each text of C_DATA is the one that its Payment leaves"
}

echo "A run of 4 terminals and $loggers loggers, to its end:"
mkdir "$work/whole"
# shellcheck disable=SC2086
"$program" run --logs "$work/whole" --loggers $loggers --count 5000 $tables >"$work/whole.ran" ||
    fail "run ended with status $?"
echo "  it says: $(number commits "$work/whole.ran") commits, $(number acknowledged "$work/whole.ran") acknowledged," \
    "durable up to epoch $(number durable "$work/whole.ran")"
examine "$work/whole"
grep -E '^(commits|durable) ' "$work/whole.ran" | sort >"$work/said"
grep -E '^(commits|durable) ' "$work/whole.recovered" | sort >"$work/found"
same "commits and durable epoch by the run, and by recover" "$work/said" "$work/found"

echo "A run that is killed:"
mkdir "$work/cut"
# shellcheck disable=SC2086
"$program" run --logs "$work/cut" --loggers $loggers --count 1000000 $tables >"$work/cut.ran" 2>"$work/cut.errors" &
child=$!
# Until it has written a megabyte, and then a second more.
waited=0
until [ "$(size "$work/cut/log-0")" -gt 1000000 ]; do
    kill -0 "$child" 2>/dev/null || fail "it ended before it was killed: $(cat "$work/cut.errors")"
    [ "$waited" -lt 120 ] || fail "it writes nothing"
    waited=$((waited + 1))
    sleep 1
done
sleep 1
kill -9 "$child" 2>/dev/null || fail "it ended before it was killed"
wait "$child" 2>/dev/null || true
child=
[ ! -s "$work/cut.ran" ] || fail "it wrote its counts, and so wasn't killed in mid-air"
echo "  killed with $(size "$work"/cut/log-*) bytes in its $loggers log files"
examine "$work/cut"

echo "The run that was killed, gone on with:"
before=$(number commits "$work/cut.recovered")
# shellcheck disable=SC2086
"$program" run --resume --logs "$work/cut" --loggers $loggers --count 1000 --seed 2 $tables >"$work/cut.resumed" ||
    fail "the resumed run ended with status $?"
resumed=$(sed -n 's/^resumed \([0-9]*\) epoch [0-9]*$/\1/p' "$work/cut.resumed")
[ "$resumed" = "$before" ] || fail "it went on behind $resumed commits, and not behind $before"
echo "  it says: $(head -n 1 "$work/cut.resumed"), then $(number commits "$work/cut.resumed") commits more"
examine "$work/cut"
after=$(number commits "$work/cut.recovered")
[ "$after" -eq $((before + $(number commits "$work/cut.resumed"))) ] || fail "$after commits were recovered"
echo "All is as it must be."
