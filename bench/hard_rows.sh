# shellcheck shell=bash disable=SC2154
# Rows that sound.sh has with `path`, which reads this file: sound that is hurt so that a decision cell by cell fails, and sound without code.

# The tape in thirty pieces, each at a speed of its own from the first to the last one.
ramp() { # FIRST LAST
    local piece
    for piece in $(seq 0 29); do
        hurt 48000 trim "$(part $((2 * piece)))" "$(part 2)" speed "$(awk -v first="$1" -v last="$2" -v piece="$piece" \
            'BEGIN { printf "%.4f", first * (last / first) ^ (piece / 29) }')" rate 48000 < "$room/tape"
    done
}

for level in 12 10 8; do
    noisy 48000 "$level" < "$room/tape" > "$room/now" && row "the tape, white noise at -$level dB" 48000
done
for level in 12 8; do
    noisy 48000 "$level" pinknoise < "$room/tape" > "$room/now" && row "the tape, pink noise at -$level dB" 48000
done
# (one after the other, since both use the same files)
noisy 48000 8 "sine 50" < "$room/tape" > "$room/hummed"
noisy 48000 17.5 "sine 150" < "$room/hummed" > "$room/hum" && cp "$room/hum" "$room/now" && row "the tape, hum at -8 dB" 48000
hurt 48000 highpass 400 < "$room/hum" > "$room/now" && row "the same, through a high-pass at 400 Hz" 48000
hurt 48000 lowpass 1200 < "$room/tape" | noisy 48000 26 > "$room/now" && row "low-pass at 1200 Hz, noise at -26 dB" 48000
noisy 48000 14 < "$room/tape" > "$room/hiss"
for speed in 0.3 0.5 2 3.5; do
    hurt 48000 speed "$speed" rate 48000 < "$room/hiss" > "$room/now" && row "noise at -14 dB, at speed $speed" 48000
done
ramp 0.4 2.5 > "$room/now" && row "thirty pieces of the tape, from speed 0.4 to 2.5" 48000
ramp 2.5 0.4 | noisy 48000 20 > "$room/now" && row "from 2.5 to 0.4, noise at -20 dB" 48000
hurt 48000 reverse < "$room/hiss" > "$room/now" && row "noise at -14 dB, backward" 48000
"$room/sound" drop 60 < "$room/tape" | noisy 48000 30 > "$room/now" && row "60 dropouts, noise at -30 dB" 48000
"$room/sound" click 600 < "$room/tape" > "$room/now" && row "600 clicks" 48000
# (in this row only words count that are whole)
"$room/sound" cut 60 "$frames" < "$room/own_tape" > "$room/now" 2> "$room/whole"
awk 'NR == FNR { whole[$1]; next } !(FNR in whole)' "$room/whole" "$room/own_words" > "$room/shortened"
row "60 cuts, $(wc -l < "$room/whole") words whole" 48000
: > "$room/shortened"
hurt 48000 highpass 3000 < "$room/tape" > "$room/now" && row "a coupling capacitor: high-pass at 3000 Hz" 48000
hurt 48000 highpass 3000 < "$room/tape" | noisy 48000 26 > "$room/now" && row "the same, noise at -26 dB" 48000
# shellcheck disable=SC2046
sox -R -D $(raw 48000) "$room/hiss" -t raw -e signed -b 8 - | sox -R -D -t raw -e signed -b 8 -c 1 -r 48000 - $(raw 48000) "$room/now"
row "noise at -14 dB, in 8 bits" 48000
for rate in 16000 192000; do
    # shellcheck disable=SC2046
    sox -R -D $(raw 48000) "$room/hiss" $(raw "$rate") "$room/now" rate "$rate"
    row "noise at -14 dB, at $rate samples a second" "$rate"
done
head -c 5760000 /dev/zero > "$room/now" && row "silence" 48000
noisy 48000 10 < "$room/now" > "$room/noise_alone" && cp "$room/noise_alone" "$room/now" && row "white noise alone" 48000
# shellcheck disable=SC2046
sox -R -D -r 48000 -c 3 -n $(raw 48000) "$room/now" synth 60 sawtooth 110 sawtooth 164.8 sawtooth 220.5 tremolo 3 remix - && row "a chord alone" 48000
