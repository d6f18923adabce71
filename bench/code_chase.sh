#!/usr/bin/env bash
# How fast `tc ltc-chase` follows about one hour at 25 frames a second, as a multiple of `tc ltc-read` of the same file, and its greatest resident memory;
# and its own limit: 100,000,000 frames are followed, and one more is not.
#
#     bench/code_chase.sh [TC [RECORDING]]
#
# TC is the built program (bin/tc); RECORDING (examples/25-worn.ltci) is repeated for the hour. It builds nothing. The gate does not run it: how long a run
# takes depends on the machine. The frames of the limit are mostly invented: 255 behind each word, and the end. The file of them has 117 MB.
set -eu
. "$(dirname "$0")/common.sh"
recording=${2:-$top/examples/25-worn.ltci}
words=90000
chase=(ltc-chase 25 17:17:17:17 2 1 8)

repeated_recording "$recording" $((words / $(words_in "$recording") + 1)) > "$room/hour"
echo "an hour: $(stat -c %s "$room/hour") bytes; $("$tc" "${chase[@]}" < "$room/hour" | tail -n 1)"
beside_ltc_read "$room/hour" ltc-chase "$tc" "${chase[@]}"
echo "greatest resident memory: $(resident "$room/hour" "$tc" "${chase[@]}")"

# A word of 1,280 ticks and 400,000 ticks without code are 257 frames: it is heard, 255 are invented, and the code is gone. So 389,105 of them are
# 99,999,985 frames. Behind the last word 19,000 ticks bring 14 invented ones, the hundred millionth frame among them, and 20,000 bring one more.
"$tc" ltc-make 25 forward 01:00:00:00 1 16 48000 | "$tc" ltc-convert 2 > "$room/word"
head -c "$header" "$room/word" > "$room/frames"
tail -c "+$((header + 1))" "$room/word" > "$room/body"
{ cat "$room/body"; printf '\0\0\0\006\032\200'; } > "$room/block"
repeated "$room/block" 105 >> "$room/frames"
repeated "$room/block" 1000 > "$room/blocks"
repeated "$room/blocks" 389 >> "$room/frames"
for last in '\112\070' '\116\040'; do
    echo 0 > "$room/status"
    { cat "$room/frames" "$room/body"; printf '%b' "$last"; } \
        | { "$tc" ltc-chase 25 01:00:00:00 255 1 8 2> "$room/note" || echo "$?" > "$room/status"; } | tail -n 1 > "$room/end"
    echo "status $(cat "$room/status")$(sed 's/^/, /' "$room/note"), the last line: $(cat "$room/end")"
done
