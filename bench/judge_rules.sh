#!/bin/sh
# Times the judging of 1,000 devices against 1,000 and 65,536 rules of which only the last matches, and prints judgements
# per second of processor time. The daemon starts before the devices come. What the same script takes without the sweep that
# judges them is told beside, and is taken off.
# It wants the built program (bin/build-usbguard builds it), awk, and GNU time as /usr/bin/time.
set -eu
. "$(dirname "$0")/program.sh"

script() {
    awk -v rules="$1" -v sweep="$2" 'BEGIN {
        key = "120100020000004050101100000100000001"
        print "usbguard-replay 1"
        for (i = 1; i < rules; i++) printf "rule block id 0001:%04x\n", i % 65536
        print "rule allow id 1050:0011"
        print "sweep 1"
        for (bus = 1; bus <= 4; bus++) {
            printf "plug usb%d 1 %s - - -\n", bus, key
            for (port = 1; port <= 250; port++) printf "plug %d-%d 1 %s - - -\n", bus, port, key
        }
        if (sweep) print "sweep 2"
    }'
}

seconds_of() {
    script "$1" "$2" >"$folder/script"
    /usr/bin/time -f '%U %S' -o "$folder/time" "$program" replay <"$folder/script" >"$folder/out"
    awk '{ print $1 + $2 }' "$folder/time"
}

run() {
    idle=$(seconds_of "$1" 0)
    whole=$(seconds_of "$1" 1)
    judged=$(grep -c ' allow rule ' "$folder/out")
    awk -v rules="$1" -v idle="$idle" -v whole="$whole" -v judged="$judged" 'BEGIN {
        seconds = whole - idle
        printf "%d rules: %d devices judged, %.2f s, of which reading %.2f s, %.0f judgements/s\n", rules, judged, whole, idle, judged / (seconds > 0 ? seconds : 0.01)
    }'
}

run 1000
run 65536
