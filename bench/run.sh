#!/usr/bin/env bash
# run.sh [PROGRAM [OTHER]]: the best of five runs of each case, in milliseconds of processor time, the system's with it, and where
# another program is given the ratio of the two; of threads, which use several processors at once, the wall time too. Both have
# clockbound's command line; without one the built program is measured (crates/clockbound/out/clockbound, which README's first command makes).
set -eu
top=$(cd "$(dirname "$0")/.." && pwd)
[ $# -gt 0 ] || set -- "$top/crates/clockbound/out/clockbound"
work=$(mktemp -d)
trap 'rm -rf "$work"' EXIT

head -c 16777216 /dev/zero | tr '\0' '\n' > "$work/feeds.txt"
reply=$(cat "$top/examples/steady-reply.hex")
yes "$reply" | tr -d '\n' | head -c 16777216 > "$work/digits.txt"
for text in reads spans turns lines calls polls full seconds clients shared; do
    "$top/bench/texts.py" "$text" > "$work/$text.txt"
done

# spent PROGRAM INPUT WORDS..: processor time and wall time
spent() {
    local program=$1 input=$2 TIMEFORMAT='%3U %3S %3R'
    shift 2
    { time "$program" "$@" < "$input" > "$work/out" 2> "$work/err" || true; } 2>&1 | awk '{ printf "%d %d", 1000 * ($1 + $2) + 0.5, 1000 * $3 + 0.5 }'
}

# measure INPUT WORDS..: the programs take turns, so that what else the machine does meets each of them.
measure() {
    local now through program
    processor=() wall=()
    for _ in 1 2 3 4 5; do
        for program in "${programs[@]}"; do
            read -r now through <<< "$(spent "$program" "$@")"
            [ "$now" -ge "${processor[$program]:-999999}" ] || processor[$program]=$now
            [ "$through" -ge "${wall[$program]:-999999}" ] || wall[$program]=$through
        done
    done
}

# row NAME LEAST: LEAST names the times of the programs, processor or wall
row() {
    local name=$1 program
    local -n least=$2
    printf '%-50s' "$name"
    for program in "${programs[@]}"; do
        printf '%6d ms' "${least[$program]}"
    done
    [ ${#programs[@]} -lt 2 ] || awk -v a="${least[${programs[0]}]}" -v b="${least[${programs[1]}]}" 'BEGIN { printf "%8.2f", a / (b ? b : 1) }'
    printf '\n'
}

# best NAME INPUT WORDS..
best() {
    local name=$1
    shift
    measure "$@"
    row "$name" processor
}

# threaded NAME INPUT WORDS..
threaded() {
    best "$@"
    row "$1, wall time" wall
    [ "$(head -n 1 "$work/out")" = clockbound-report,1 ] || echo "$1: no report"
}

declare -A processor wall
programs=("$@")
best "replay of a real reply" "$top/examples/steady.trace" replay
best "replay, refused: 16 MiB of line feeds" "$work/feeds.txt" replay
best "drill 1 20000" /dev/null drill 1 20000
"${programs[0]}" drill 1 20000 --trace > "$work/day.txt"
best "drill 1 20000 --trace" /dev/null drill 1 20000 --trace
best "replay of that day" "$work/day.txt" replay
best "replay --civil of that day" "$work/day.txt" replay --civil
best "replay, 20,000 polls and their calls" "$work/polls.txt" replay
best "replay, 50,000,000 turns of two clients" "$work/turns.txt" replay
best "replay, 49,999,950 turns in 999,999 lines" "$work/lines.txt" replay
best "replay, 100,000 polls and 300,000 calls" "$work/calls.txt" replay
best "order 1000000, 16 MiB" "$work/full.txt" order 1000000
audited() { # NAME TRACE: an audit of what `replay` reports of the trace, in the order of threads
    "${programs[0]}" replay < "$2" > "$work/report.txt"
    "$top/bench/texts.py" reported "$2" "$work/report.txt" > "$work/audit.txt"
    best "$1" "$work/audit.txt" audit
    [ "$(cat "$work/out")" = lawful ] || echo "$1: not lawful"
}
audited "audit of a day of 20,000 polls" "$work/day.txt"
audited "audit, 300,000 answers of 64 clients" "$work/clients.txt"
audited "audit, 27,000 seconds, 16 MiB" "$work/seconds.txt"
threaded "threads, a day of 20,000 polls" "$work/day.txt" threads
threaded "threads, 64 clients with 300,000 calls" "$work/shared.txt" threads
threaded "threads --workers 4, the same" "$work/shared.txt" threads --workers 4
best "decode reply, one reply" "$top/examples/steady-reply.hex" decode reply
best "decode reply, 16 MiB of digits" "$work/digits.txt" decode reply
best "decode page, one page" "$top/examples/start-page.hex" decode page
best "decode image, one segment" "$top/examples/kept-image.hex" decode image
best "pagetime, 299,999 reads" "$work/reads.txt" pagetime
best "agree, 299,000 changes, 1,000 questions" "$work/spans.txt" agree
