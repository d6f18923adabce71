#!/usr/bin/env bash
# How fast `tc ltc-jam 2` works on about one hour at 25 frames a second, as a multiple of `tc ltc-read` of the same file, and its
# greatest resident memory; and whether the words that are read from the copies of recordings are their frames, in order and in place.
#
#     bench/jam.sh [TC [RECORDING..]]
#
# TC is the built program (bin/tc). The first RECORDING (examples/25-worn.ltci) is repeated for the hour, and each of them (those in
# examples/) is jammed and read again. It builds nothing. The gate does not run it: how long a run takes depends on the machine.
set -eu
. "$(dirname "$0")/common.sh"
recordings=("${@:2}")
[ ${#recordings[@]} -gt 0 ] || recordings=("$top"/examples/25-worn.ltci "$top"/examples/25-turn.ltci "$top"/examples/30d-damaged.ltci)
words=90000
cell=20

# The words of a copy: way, label, and tick, of which the frame number k has (82 + 80 k) cells.
for recording in "${recordings[@]}"; do
    for limit in 0 1 2 255; do
        "$tc" ltc-fly "$limit" < "$recording" | awk -v cell="$cell" \
            '$1 == "heard" || $1 == "invented" { print $2, $3, (82 + 80 * k++) * cell }' > "$room/frames"
        "$tc" ltc-jam "$limit" "$cell" 48000 < "$recording" | "$tc" ltc-read > "$room/report"
        awk '$1 == "word" && $5 == "00000000" && $9 == 1 { print $2, $3, $11 }' "$room/report" | cmp - "$room/frames"
        grep -q ' refused 0 lost 0 ' "$room/report" || { echo "$recording, $limit: $(tail -n 1 "$room/report")" >&2; exit 1; }
        echo "$(basename "$recording"), limit $limit: $(wc -l < "$room/frames") frames, all read from the copy"
    done
done

repeated_recording "${recordings[0]}" $((words / $(words_in "${recordings[0]}") + 1)) > "$room/hour"
"$tc" ltc-jam 2 "$cell" 48000 < "$room/hour" > "$room/copy"
echo "an hour: $(stat -c %s "$room/hour") bytes; its copy: $(stat -c %s "$room/copy") bytes; $("$tc" ltc-read < "$room/copy" | tail -n 1)"

beside_ltc_read "$room/hour" 'ltc-jam 2' "$tc" ltc-jam 2 "$cell" 48000
echo "greatest resident memory: $(resident "$room/hour" "$tc" ltc-jam 2 "$cell" 48000)"
