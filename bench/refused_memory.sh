#!/usr/bin/env bash
# Runs every command under shrinking limits of address space, and checks what it answers: its usual answer, or status 6
# with nothing written. A signal, or any other status, is a fault. Run by hand, never in the gate.
#
#     bench/refused_memory.sh [PROGRAM]        bin/tc if none is named
set -u
cd "$(dirname "$0")/.."
program=${1:-bin/tc}
work=$(mktemp -d)
trap 'rm -rf "$work"' EXIT
printf 'play,,00:00:00:00,forward,0\n,,00:00:00:01,forward,60\n,,,,\n' > "$work/script"
"$program" ltc-pcm 16000 < examples/25-worn.ltci | head -c 40000 > "$work/sound"

# INPUT, then the words
cases() {
    local word
    for word in ltc-read ltc-worn ltc-rough 'ltc-fly 2' 'ltc-mtc 2' 'ltc-jam 2 20 48000' 'ltc-convert 2' 'ltc-pcm 100' 'ltc-chase 25 17:17:17:17 2 1 8'; do
        echo "examples/25-worn.ltci $word"
    done
    echo "examples/30d-damaged.mtc mtc-read"
    echo "examples/30-damaged.vitl vitc-read"
    echo "$work/sound pcm-ltc 25 48000 1000 16 follow"
    echo "$work/script chase 25 00:00:00:00"
    echo "/dev/null ltc-make 25 forward 00:00:00:00 3 20 48000"
    echo "/dev/null ltc-load 1 20"
    echo "/dev/null vitc-make 25 00:00:00:00 3 1000"
    echo "/dev/null number 25 00:00:01:00"
    echo "/dev/null label 30d 1800"
}

# the program runs at all only if the loader finds room: the least limit at which it answers something
runs() { (ulimit -v "$1"; exec "$program" "${@:3}" < "$2" > "$work/out" 2> "$work/note"); }

faults=0
while read -r input words; do
    # shellcheck disable=SC2086
    "$program" $words < "$input" > "$work/usual" 2> /dev/null
    usual=$?
    answers=0
    refusals=0
    for ((limit = 65536; limit >= 256; limit -= 64)); do
        # shellcheck disable=SC2086
        runs "$limit" "$input" $words 2> /dev/null
        status=$?
        if [ "$status" -eq "$usual" ] && cmp -s "$work/out" "$work/usual"; then
            answers=$((answers + 1))
        elif [ "$status" -eq 6 ] && [ ! -s "$work/out" ]; then
            refusals=$((refusals + 1))
        elif grep -qi 'cannot allocate\|error while loading\|cannot execute' "$work/note" || ! grep -q . "$work/note" && [ "$status" -ge 126 ] && [ ! -s "$work/out" ]; then
            # the system could not begin the program: no smaller limit is of use
            break
        else
            echo "fault: $words at $limit KiB: status $status, $(head -c 60 "$work/note")"
            faults=$((faults + 1))
        fi
    done
    echo "$words: $answers usual answers, $refusals times status 6, begun down to $((limit + 64)) KiB"
done < <(cases)
echo "$faults faults"
[ "$faults" -eq 0 ]
