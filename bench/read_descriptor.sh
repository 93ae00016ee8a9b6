#!/bin/sh
# Times read-descriptor on 131,072 bytes of descriptors, and prints megabytes per second without the program's start, which
# is timed on the 18 bytes of a device descriptor. The output goes to a file.
# It wants the built program (bin/build-usbguard builds it), awk, and GNU date.
set -eu
. "$(dirname "$0")/program.sh"
runs=${1:-200}

printf '\022\001\000\002\000\000\000\100\120\020\021\000\000\001\000\000\000\001' >"$folder/device"
# a configuration, then 14,560 interface descriptors of nine bytes, and a descriptor of five bytes
printf '\011\002\033\000\002\001\000\200\062' >"$folder/configuration"
printf '\011\004\000\000\000\003\001\001\000' >"$folder/interface"
{
    cat "$folder/device" "$folder/configuration"
    awk 'BEGIN { for (i = 0; i < 14560; i++) print "" }' | while read -r _; do cat "$folder/interface"; done
    printf '\005\044\000\000\000'
} >"$folder/many"

# seconds of so many runs on a file
seconds() {
    begin=$(date +%s.%N)
    n=0
    while [ "$n" -lt "$runs" ]; do
        "$program" read-descriptor <"$1" >"$folder/out"
        n=$((n + 1))
    done
    end=$(date +%s.%N)
    awk -v begin="$begin" -v end="$end" 'BEGIN { print end - begin }'
}

start=$(seconds "$folder/device")
whole=$(seconds "$folder/many")
bytes=$(wc -c <"$folder/many")
lines=$(wc -l <"$folder/out")
awk -v start="$start" -v whole="$whole" -v bytes="$bytes" -v lines="$lines" -v runs="$runs" 'BEGIN {
    each = (whole - start) / runs
    printf "%d bytes, %d lines, %d runs: start %.2f ms, reading and listing %.2f ms, %.1f MB/s\n", bytes, lines, runs, 1000 * start / runs, 1000 * each, bytes / each / 1000000
}'
