# shellcheck shell=bash disable=SC2034
# What the measuring scripts share. A script sources it behind `set -eu` with its own words, of which the first names the built
# program (bin/tc). Nothing is built here, and nothing of bench/ is run by the gate: how long a run takes depends on the machine.
top=$(cd "$(dirname "${BASH_SOURCE[0]}")/.." && pwd)
tc=${1:-$top/bin/tc}
[ -x "$tc" ] || { echo "no program at $tc: run ./build" >&2; exit 2; }
room=$(mktemp -d)
trap 'rm -rf "$room"' EXIT

# The bytes of a header of an interval file.
header=12

# A file, repeated.
repeated() { for _ in $(seq "$2"); do cat "$1"; done; } # FILE TIMES

# A recording whose intervals are repeated behind its header.
repeated_recording() { # FILE TIMES
    tail -c "+$((header + 1))" "$1" > "$room/body"
    head -c "$header" "$1"
    repeated "$room/body" "$2"
}

# The words that are read from a recording.
words_in() { "$tc" ltc-read < "$1" | awk '$1 == "end" { print $5 }'; }

# The user time of a command that reads a file, and the user's and the system's, as multiples of those of `tc ltc-read`: of each the least of
# seven turns, in which both write to a file.
beside_ltc_read() { # FILE NAME COMMAND..
    local TIMEFORMAT='%3U %3S' turn field
    for turn in $(seq 7); do
        { time "$tc" ltc-read < "$1" > "$room/written"; } 2>> "$room/read.$2"
        { time "${@:3}" < "$1" > "$room/written"; } 2>> "$room/other.$2"
    done
    for field in 1 2; do
        paste "$room/read.$2" "$room/other.$2" | awk -v field="$field" -v name="$2" '
            { read = $1 + (field == 2) * $2; other = $3 + (field == 2) * $4 }
            NR == 1 || read < least_read { least_read = read }
            NR == 1 || other < least_other { least_other = other }
            END { printf "%s: ltc-read %d ms, %s %d ms = %.2f times\n", field == 1 ? "user" : "user and system",
                1000 * least_read + 0.5, name, 1000 * least_other + 0.5, least_other / least_read }'
    done
}

# The greatest resident memory in KiB of a command that reads a file. GNU time is small itself, so it does not hide the program's.
resident() { # FILE COMMAND..
    [ -x /usr/bin/time ] || { echo "not measured, for want of /usr/bin/time"; return; }
    /usr/bin/time -f '%M KiB' -o "$room/resident" "${@:2}" < "$1" > /dev/null
    cat "$room/resident"
}
