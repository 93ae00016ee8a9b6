#!/bin/sh
# Times replay on two scripts of generated events, one ten times as long as the other, and prints the ratio of the
# processor's times. Between the events devices come and go at eight ports, and calls are told to fail. It wants the
# built program (bin/build-usbguard builds it), awk, and GNU time as /usr/bin/time. Words: how many events the shorter script
# has (50000), and the number below 2^32 that the events come from (7).
set -eu
. "$(dirname "$0")/program.sh"

hub=12010002090001406b1d020006060302010109021900010100e0000904000001090000000705810304000c
key=120100020000004050101100000100000001
other=120100020000004050101200000100000001

# x goes on by a linear congruence modulo 2^32; its upper bits choose the port and what happens
many_events() {
    awk -v events="$1" -v x="$2" -v hub=$hub -v key=$key -v other=$other 'BEGIN {
        print "usbguard-replay 1"
        printf "seed %064d\n", 0
        print "rule allow id 1050:0011"
        print "rule block id *:*"
        print "plug usb1 1 " hub " - - -"
        for (i = 1; i <= events; i++) {
            # 1664525 * x has at most 53 bits
            x = (1664525 * x + 1013904223) % 4294967296
            port = 1 + int(x / 16777216) % 8
            what = int(x / 65536) % 4
            if (what == 0) print "unplug 1-" port
            else if (what == 1) print "plug 1-" port " 0 " key " - - -"
            else if (what == 2) print "plug 1-" port " 1 " other " - - -"
            else print "fail " 1 + int(x / 256) % 16
            print "sweep " i
        }
    }'
}

run() {
    many_events "$1" "$2" >"$folder/script"
    /usr/bin/time -f '%e %U %S %M' -o "$folder/time" "$program" replay <"$folder/script" >"$folder/out"
    awk -v events="$1" -v last="$(tail -n 1 "$folder/out")" '{
        printf "%8d events %8.2f s, of the processor %8.2f s %8d KiB peak  %s\n", events, $1, $2 + $3, $4, last
    }' "$folder/time"
}

processor_time() {
    awk '{ print $2 + $3 }' "$folder/time"
}

events=${1:-50000}
start=${2:-7}
run "$events" "$start"
few=$(processor_time)
run $((events * 10)) "$start"
many=$(processor_time)
awk -v few="$few" -v many="$many" 'BEGIN { printf "ten times the events take %.1f times as long\n", many / (few + 0.005) }'
