#!/bin/sh
# Times replay on scripts of many lines and of many live devices, and prints lines per second and peak memory.
# It wants the built program (bin/build-usbguard builds it), awk, and GNU time as /usr/bin/time.
set -eu
. "$(dirname "$0")/program.sh"

hub=12010002090001406b1d020006060302010109021900010100e0000904000001090000000705810304000c
key=120100020000004050101100000100000001

# a line in ten is a sweep; between them a device comes and goes
many_lines() {
    awk -v lines="$1" -v hub=$hub -v key=$key 'BEGIN {
        print "usbguard-replay 1"; print "rule allow 1050:0011"; print "plug usb1 1 " hub " - - -"
        for (i = 4; i <= lines; i++)
            if (i % 10 == 0) print "sweep " i
            else if (i % 2 == 0) print "plug 1-1 0 " key " - - -"
            else print "unplug 1-1"
    }'
}

# one controller with that many devices behind hubs of 255 ports, and 20 sweeps
many_devices() {
    awk -v devices="$1" -v hub=$hub -v key=$key 'BEGIN {
        print "usbguard-replay 1"; print "rule allow 1050:0011"; print "plug usb1 1 " hub " - - -"
        for (n = 0; n < devices; n++) {
            if (n % 254 == 0) { top = int(n / 254) + 1; print "plug 1-" top " 0 " key " - - -" }
            else print "plug 1-" top "." (n % 254) " 0 " key " - - -"
        }
        for (i = 1; i <= 20; i++) print "sweep " i
    }'
}

run() {
    lines=$(wc -l <"$folder/script")
    /usr/bin/time -f '%e %M' -o "$folder/time" "$program" replay <"$folder/script" >"$folder/out"
    awk -v what="$1" -v lines="$lines" -v done="$(tail -n 1 "$folder/out")" '{
        printf "%-22s %8d lines %8.2f s %10.0f lines/s %8d KiB peak  %s\n", what, lines, $1, lines / ($1 + 0.005), $2, done
    }' "$folder/time"
}

for lines in 1000 10000 100000; do
    many_lines $lines >"$folder/script"
    run "$lines lines"
done
for devices in 100 1000 10000; do
    many_devices $devices >"$folder/script"
    run "$devices devices"
done
