#!/usr/bin/env bash
# The table of docs/reference/sound.md: how many words of sound that libltc made and sox degraded are read, by `tc` and by libltc's own decoder. Behind a
# plus sign are the false ones: words whose address and user bits were never encoded together.
#
#     bench/sound.sh [TC [FRAMES [live|path]]]
#
# TC is the built program (bin/tc), FRAMES how many frames of drop-frame code at 29.97 a second are made (1800). It needs a C compiler, Debian's libltc-dev and
# sox. It builds nothing but its own small C program. The gate does not run it.
#
# With `live` the same sound, and more at other speeds and with silences in it, is sliced with `live` and without. A
# cell has how many words are read both ways, to the tick, and behind it, if there are some, how many lines `live`
# adds (+) and takes (-): first of words, and then of the others; and how many of its words are false.
#
# With `path` the best path reads the same sound, and more that is degraded so that other ways fail (hard_rows.sh).
set -eu
top=$(cd "$(dirname "$0")/.." && pwd)
tc=${1:-$top/bin/tc}
frames=${2:-1800}
mode=${3:-}
fps=29.97
system=30
[ -x "$tc" ] || { echo "no program at $tc: run ./build" >&2; exit 2; }
room=$(mktemp -d)
trap 'rm -rf "$room"' EXIT
cc -O2 -o "$room/sound" "$top/bench/sound.c" -lltc -lm

# Raw samples as sox reads and writes them, at a rate.
raw() { echo "-t raw -e signed -b 16 -c 1 -r $1"; }

# Sound of a rate through effects of sox, behind its own dither.
hurt() { # RATE EFFECT..
    local rate=$1
    shift
    # shellcheck disable=SC2046
    sox -R -D $(raw "$rate") - $(raw "$rate") - "$@"
}

# Noise under the sound, a number of decibels below full scale: white, or what `synth` of sox makes of other words.
noisy() { # RATE DECIBELS [WORDS]
    local rate=$1 amplitude kind=${3:-whitenoise}
    amplitude=$(awk -v db="$2" 'BEGIN { print 10 ^ (-db / 20) }')
    cat > "$room/still"
    # shellcheck disable=SC2046,SC2086
    sox -R -D $(raw "$rate") "$room/still" $(raw "$rate") "$room/noise" synth $kind vol "$amplitude"
    # shellcheck disable=SC2046
    sox -R -D -m -v 1 $(raw "$rate") "$room/still" -v 1 $(raw "$rate") "$room/noise" $(raw "$rate") -
}

# How many lines are words that were encoded, and behind a plus sign how many are not. Those of which a cut took a part
# are neither.
counted() {
    awk -v whole="$room/encoded" -v shortened="$room/shortened" '
        BEGIN {
            while ((getline word < whole) > 0) encoded[word] = 1
            while ((getline word < shortened) > 0) delete encoded[word]; close(shortened)
            while ((getline word < shortened) > 0) cut[word] = 1
        }
        $0 in encoded { good++; next }
        $0 in cut { next }
        { false_ones++ }
        END { printf "%d%s", good, false_ones ? " +" false_ones : "" }'
}

# The address and the user bits of each word of a report.
told() { awk '$1 == "word" { sub(";", ":", $3); print $3, $5 }'; }

# The words that a command reads of an interval file.
# shellcheck disable=SC2086
words() { "$tc" $1 | told; }

# Seconds of a tape of 1,800 frames, in one of as many frames as are made.
part() { awk -v seconds="$1" -v frames="$frames" 'BEGIN { printf "%.4f", seconds * frames / 1800 }'; }

# How the sound is sliced, and by which command it is read.
if [ "$mode" = path ]; then
    ways=("250 16 follow,ltc-rough" "250 16 follow 3,ltc-rough" "250 16 deep 3,ltc-rough" "250 16 path,ltc-rough" \
        "250 16 path,ltc-rough firm" "250 16 path,ltc-rough consecutive")
else
    ways=("1000,ltc-read" "1000 16,ltc-worn" "250 16 follow,ltc-read" "250 16 follow,ltc-worn" "250 16 follow,ltc-rough" \
        "250 16 follow 3,ltc-rough" "250 16 deep,ltc-rough" "250 16 deep 3,ltc-rough")
fi

# A row: what was done to the sound, its rate, and how many words are read of it.
row() { # NAME RATE
    local name=$1 rate=$2 cells
    if [ "$mode" = live ]; then
        both "$name" "$rate"
        return
    fi
    cells="| $name | $("$room/sound" read "$fps" "$rate" < "$room/now" | counted)"
    for way in "${ways[@]}"; do
        # shellcheck disable=SC2086
        cells="$cells | $("$tc" pcm-ltc "$system" "$rate" ${way%,*} < "$room/now" | words "${way#*,}" | counted)"
    done
    echo "$cells |"
}

# How many words two reports share, and how many lines the second one adds and takes. `lost` counts intervals, of which
# pieces are more, so that number is left out. The last line is too.
compared() { # REPORT REPORT
    awk '{ sub(/ interval [0-9]+/, ""); kind = $1 == "word" ? "word" : "other" }
        $1 == "end" { next }
        NR == FNR { before[$0] = kind; next }
        $0 in before { shared[kind]++; delete before[$0]; next }
        { added[kind]++ }
        function changes(kind) { return added[kind] + taken[kind] ? sprintf(" +%d -%d", added[kind], taken[kind]) : "" }
        END {
            for (line in before) taken[before[line]]++
            other = changes("other")
            printf "%d%s%s", shared["word"], changes("word"), other ? ", other" other : ""
        }' "$1" "$2"
}

# What a reader says of the sound without `live` and with it.
cell_of_both() { # FILE READER WORDS..
    "$tc" "${@:3}" < "$1" | "$tc" "$2" > "$room/ended"
    "$tc" "${@:3}" live < "$1" | "$tc" "$2" > "$room/passing"
    compared "$room/ended" "$room/passing"
    told < "$room/passing" | counted | sed -n 's/.*+/, false /p'
}

# A row with `live` and without: raw samples under each tolerance, and a file under the rough one.
both() { # NAME RATE
    local name=$1 rate=$2 cells="| $1" reader
    for reader in ltc-read ltc-worn ltc-rough; do
        cells="$cells | $(cell_of_both "$room/now" "$reader" pcm-ltc "$system" "$rate" 250 16 follow)"
    done
    # shellcheck disable=SC2046
    sox -D $(raw "$rate") "$room/now" -t wav "$room/now.wav"
    echo "$cells | $(cell_of_both "$room/now.wav" ltc-rough wav-ltc "$system" 1 250) |"
}

# Silences of 20 ms to 6 s, as `pad` of sox takes them, at parts of the sound that is played at a speed.
silences_at() { # SPEED
    awk -v seconds="$frames" -v fps="$fps" -v speed="$1" 'BEGIN {
        seconds /= fps * speed
        count = split("0.02 0.051 0.08 0.093 0.3 0.151 1 0.242 2.5 0.363 6 0.555", pairs, " ")
        for (i = 1; i < count; i += 2) printf "%s@%.4f ", pairs[i], pairs[i + 1] * seconds
    }'
}

# As many silences as a fifth of the frames, of 500 to 6,000 samples, at places by chance where the sound is played at a
# speed. The numbers are those of a generator that each awk has alike.
silences_by_chance() { # SPEED SEED
    awk -v frames="$frames" -v fps="$fps" -v speed="$1" -v state="$2" '
        function chance() { state = (state * 16807) % 2147483647; return state / 2147483647 }
        BEGIN {
            for (i = 1; i <= 100; i++) chance()
            count = int(frames / 5); apart = 48000 * frames / fps / speed / count
            for (i = 0; i < count; i++) {
                place = (i + chance()) * apart
                printf "%ds@%ds ", 500 + 5500 * chance(), place
            }
        }'
}

# Rows that only `live` has: clean and hissy sound at other speeds, and with silences of 20 ms to 6 s in it.
rows_of_live() {
    local sound speed level sample
    for level in 30 22; do noisy 48000 "$level" < "$room/tape" > "$room/hiss$level"; done
    for sound in clean hiss30 hiss22; do
        for speed in 0.4 0.7 1.5 2.5 3.5; do
            hurt 48000 speed "$speed" rate 48000 < "$room/$sound" > "$room/now" && row "$sound at speed $speed" 48000
        done
    done
    for sound in clean tape hiss30 hiss22; do
        for speed in 0.4 1 3.5; do
            # shellcheck disable=SC2046
            hurt 48000 speed "$speed" rate 48000 < "$room/$sound" | hurt 48000 pad $(silences_at "$speed") > "$room/now"
            row "$sound at speed $speed with six silences" 48000
        done
    done
    for speed in 0.4 1 3.5; do
        hurt 48000 speed "$speed" rate 48000 < "$room/clean" > "$room/played"
        for sample in $(seq 15); do
            # shellcheck disable=SC2046
            hurt 48000 pad $(silences_by_chance "$speed" "$sample") < "$room/played"
        done > "$room/now"
        row "clean at speed $speed, 15 times, with $((15 * (frames / 5))) silences by chance" 48000
    done
    # Behind each silence comes one unequal pair before the first word.
    "$tc" ltc-make 30 forward 01:00:00:00 5 20 48000 | "$tc" ltc-pcm 8000 > "$room/five"
    for frame in $(seq 0 4); do echo "01:00:00:0$frame 00000000"; done >> "$room/encoded"
    for sample in $(seq 400); do
        cat "$room/five"
        head -c $((2 * (800 + sample))) /dev/zero
    done > "$room/now"
    row "five frames of ltc-make, 400 times, with a silence after each, a sample longer than the one before" 48000
}

if [ "$mode" = live ]; then
    echo "| Sound of $frames frames | read | worn | rough | file, rough |"
    echo "|---|---|---|---|---|"
elif [ "$mode" = path ]; then
    echo "| Sound of $frames frames | libltc | rough | rough 3 | deep 3, rough | path, rough | path, rough firm | path, rough consecutive |"
    echo "|---|---|---|---|---|---|---|---|"
else
    echo "| Sound of $frames frames | libltc | whole, read | fixed, worn | follow, read | follow, worn | follow, rough | follow 3, rough | deep, rough | deep 3, rough |"
    echo "|---|---|---|---|---|---|---|---|---|---|"
fi
"$room/sound" make "$fps" 48000 "$frames" > "$room/clean" 2> "$room/encoded"
"$room/sound" make "$fps" 48000 "$frames" 01:00:00:00 own > "$room/own" 2> "$room/own_words"
cat "$room/own_words" >> "$room/encoded"
: > "$room/shortened"
cp "$room/clean" "$room/now" && row "as it was made" 48000
# The edges of a tape are not square, and it hisses: what follows was hurt so first. Where places of the tape meet that were apart, each frame has
# user bits of its own.
hurt 48000 vol 0.5 lowpass 6000 < "$room/clean" | noisy 48000 50 > "$room/tape"
hurt 48000 vol 0.5 lowpass 6000 < "$room/own" | noisy 48000 50 > "$room/own_tape"
cp "$room/tape" "$room/now" && row "low-pass at 6000 Hz, noise at -50 dB: a tape" 48000
for level in 40 30 26 22 18 14; do
    noisy 48000 "$level" < "$room/tape" > "$room/now" && row "the tape, noise at -$level dB" 48000
done
for corner in 4000 2500 1500; do
    hurt 48000 lowpass "$corner" < "$room/tape" > "$room/now" && row "the tape, low-pass at $corner Hz" 48000
done
for speed in 0.4 0.9 1.1 1.6 2.3 3.5; do
    hurt 48000 speed "$speed" rate 48000 < "$room/tape" > "$room/now" && row "the tape at speed $speed" 48000
done
# Some seconds forward and some backward, each piece at another speed, spliced where they end.
for piece in "0 1 " "8 2.3 reverse" "3 0.6 " "21 1.3 " "15 3.1 reverse" "30 0.4 reverse" "26 1.9 " "45 1.1 reverse" "38 2.7 "; do
    read -r from speed way <<< "$piece"
    # shellcheck disable=SC2086
    hurt 48000 trim "$(part "$from")" "$(part 5.03)" $way speed "$speed" rate 48000 < "$room/own_tape"
done > "$room/now" && row "nine pieces of it, forward and backward, from 0.4 to 3.1" 48000
"$room/sound" fall 30 < "$room/tape" > "$room/now" && row "the tape, its level falling by 30 dB" 48000
"$room/sound" fall 30 < "$room/tape" | noisy 48000 60 > "$room/now" && row "the same, noise at -60 dB" 48000
# shellcheck disable=SC2046
sox -R -D $(raw 48000) "$room/tape" -t raw -e signed -b 8 - | sox -R -D -t raw -e signed -b 8 -c 1 -r 48000 - $(raw 48000) "$room/now" && row "the tape in 8 bits" 48000
for rate in 44100 22050; do
    # shellcheck disable=SC2046
    sox -R -D $(raw 48000) "$room/tape" $(raw "$rate") "$room/slow" rate "$rate"
    cp "$room/slow" "$room/now" && row "the tape at $rate samples a second" "$rate"
done
# shellcheck disable=SC2046
sox -R -D $(raw 22050) "$room/slow" $(raw 44100) "$room/now" rate 44100 && row "the same, doubled by sox" 44100
if [ "$mode" = live ]; then rows_of_live; fi
if [ "$mode" = path ]; then
    # shellcheck source=bench/hard_rows.sh
    . "$top/bench/hard_rows.sh"
fi
