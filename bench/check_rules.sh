#!/bin/sh
# Times check-rules on 65,536 rules, without conditions and with some, and prints rules per second and peak memory.
# It wants the built program (bin/build-usbguard builds it), awk, and GNU time as /usr/bin/time.
set -eu
. "$(dirname "$0")/program.sh"

simple() {
    awk 'BEGIN { for (i = 0; i < 65536; i++) printf "allow id %04x:%04x\n", i, (i * 7) % 65536 }'
}

whole() {
    awk 'BEGIN {
        for (i = 0; i < 65536; i++)
            printf "block id %04x:* serial \"%d\" with-interface one-of { 03:00:* 08:06:50 } if all-of { !random(0.5) rule-applied(%d) localtime(22:00-06:00) }\n", i, i, i
    }'
}

run() {
    "$1" >"$folder/rules"
    /usr/bin/time -f '%e %M' -o "$folder/time" "$program" check-rules <"$folder/rules" >"$folder/out"
    bytes=$(wc -c <"$folder/rules")
    read -r seconds peak <"$folder/time"
    awk -v name="$1" -v seconds="$seconds" -v peak="$peak" -v bytes="$bytes" -v said="$(cat "$folder/out")" 'BEGIN {
        printf "%s: %s, %d bytes, %.2f s, %.0f rules/s, %.1f MB peak\n", name, said, bytes, seconds, 65536 / (seconds > 0 ? seconds : 0.01), peak / 1024
    }'
}

run simple
run whole
