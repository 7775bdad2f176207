#!/usr/bin/env bash
# now.sh [PROGRAM [PEER]]: what one client call on the shared words takes, in nanoseconds, the least of five runs: alone in processor
# time, and beside a daemon that publishes in another thread by the clock, with how many calls answered a time and how often the daemon
# published; then what its loads alone take, where there is a rustc, and the lines on calls of PEER, a program that measures its own.
# Without a PROGRAM the built one is measured (crates/now_calls/out/now_calls, which `rt run` makes in crates/now_calls).
set -eu
top=$(cd "$(dirname "$0")/.." && pwd)
program=${1:-$top/crates/now_calls/out/now_calls}
peer=${2:-}
work=$(mktemp -d)
trap 'rm -rf "$work"' EXIT

# alone NAME WORD: the program makes twenty million calls.
alone() {
    local least=999999 now TIMEFORMAT='%3U %3S'
    for _ in 1 2 3 4 5; do
        now=$({ time "$program" "$2" > "$work/out"; } 2>&1 | awk '{ printf "%d", 50 * ($1 + $2) + 0.5 }')
        [ "$now" -ge "$least" ] || least=$now
    done
    printf '%-52s %5d ns\n' "$1" "$least"
}

# beside NAME WORD: it makes two million, and tells their time.
beside() {
    local least=999999 now line told=
    for _ in 1 2 3 4 5; do
        line=$("$program" "$2")
        now=$(awk '{ print $5 }' <<< "$line")
        [ "$now" -ge "$least" ] || { least=$now; told=$line; }
    done
    printf '%-52s %5d ns   %s\n' "$1" "$least" "${told%, sum*}"
}

alone "a call alone" alone
alone "a call alone, with a page" page
beside "a call beside a daemon that publishes" beside
beside "the same with a page" beside-page
if command -v rustc > "$work/rustc"; then
    rustc --edition 2021 -O "$top/bench/loads.rs" -o "$work/loads"
    printf '%-52s %s\n' "its eleven loads alone" "$("$work/loads")"
fi
[ -z "$peer" ] || "$peer" | grep '^now'
