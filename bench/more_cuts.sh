#!/usr/bin/env bash
# The row of cuts of sound.sh, of other recordings: how many whole words of cut tapes are read, and how many false ones.
#
#     bench/more_cuts.sh [TC [RECORDINGS]]
#
# TC is the built program (bin/tc). Of each of three levels of noise 8 recordings are made, or as many as are named: 600
# frames of drop-frame code at 29.97 a second by libltc's encoder, of which each has user bits of its own, through a
# low-pass and with white noise, with 60 cuts inside words. A cell has the words that are whole on the tapes, and how
# many of these are read; behind a plus sign come words that nobody recorded. A word of which a cut took a part is
# neither. It needs a C compiler, Debian's libltc-dev and sox. The gate does not run it.
set -eu
top=$(cd "$(dirname "$0")/.." && pwd)
tc=${1:-$top/bin/tc}
recordings=${2:-8}
frames=600 rate=48000
[ -x "$tc" ] || { echo "no program at $tc: run ./build" >&2; exit 2; }
[[ $recordings =~ ^[1-9][0-9]?$ ]] || { echo "bench/more_cuts.sh: recordings are from 1 to 99" >&2; exit 2; }
room=$(mktemp -d)
trap 'rm -rf "$room"' EXIT
cc -O2 -o "$room/sound" "$top/bench/sound.c" -lltc -lm
raw=(-t raw -e signed -b 16 -c 1 -r "$rate")

# A tape of an hour, with noise so many decibels below full scale, and its cuts by a seed.
tape() { # HOUR DECIBELS SEED
    "$room/sound" make 29.97 "$rate" "$frames" "$1:17:13:00" own > "$room/clean" 2> "$room/words"
    sox -R -D "${raw[@]}" "$room/clean" "${raw[@]}" "$room/still" vol 0.5 lowpass 6000
    sox -R -D "${raw[@]}" "$room/still" "${raw[@]}" "$room/noise" synth whitenoise \
        vol "$(awk -v db="$2" 'BEGIN { print 10 ^ (-db / 20) }')"
    sox -R -D -m -v 1 "${raw[@]}" "$room/still" -v 1 "${raw[@]}" "$room/noise" "${raw[@]}" - \
        | "$room/sound" cut 60 "$frames" "$3" > "$room/now" 2> "$room/whole"
}

# The address and the user bits of each word of a report.
told() { awk '$1 == "word" { sub(";", ":", $3); print $3, $5 }'; }

# Adds to the count of a column the whole words that are read, and the false ones.
counted() { # COLUMN
    awk -v column="$1" -v words="$room/words" -v whole="$room/whole" '
        BEGIN {
            while ((getline place < whole) > 0) is_whole[place]
            while ((getline word < words) > 0) known[word] = ++count in is_whole
        }
        !($0 in known) { wrong++; next }
        known[$0] { good++ }
        END { print column, good + 0, wrong + 0 }' >> "$room/counts"
}

# What each reader makes of a tape.
read_tape() {
    "$room/sound" read 29.97 "$rate" < "$room/now" | counted 1
    "$tc" pcm-ltc 30 "$rate" 250 16 follow < "$room/now" | "$tc" ltc-rough | told | counted 2
    "$tc" pcm-ltc 30 "$rate" 250 16 path < "$room/now" > "$room/cells"
    "$tc" ltc-rough < "$room/cells" | told | counted 3
    "$tc" ltc-rough firm < "$room/cells" | told | counted 4
    "$tc" ltc-rough consecutive < "$room/cells" | told | counted 5
    echo "0 $(wc -l < "$room/whole") 0" >> "$room/counts"
}

echo "| $recordings recordings, noise at | whole words | libltc | rough | path, rough | path, rough firm | path, rough consecutive |"
echo "|---|---|---|---|---|---|---|"
for level in 50 26 16; do
    : > "$room/counts"
    for number in $(seq "$recordings"); do
        tape "$(printf %02d $((number % 24)))" "$level" $((1000003 * number + 31 * level))
        read_tape
    done
    awk -v level="$level" '{ good[$1] += $2; wrong[$1] += $3 }
        END {
            printf "| -%d dB | %d", level, good[0]
            for (column = 1; column <= 5; column++) printf " | %d%s", good[column], wrong[column] ? " +" wrong[column] : ""
            print " |"
        }' "$room/counts"
done
