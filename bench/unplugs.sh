#!/bin/sh
# Times replay on two scripts: one plugs in many devices behind hubs of 255 ports and unplugs each, in the order in which they came; one
# schedules as many moves for calls of one event, in no order. Each is run with so many devices or moves, and with twice as many. It
# wants the built program (bin/build-usbguard builds it), awk, and GNU time as /usr/bin/time. Word: how many (20000, and at most 32000).
set -eu
. "$(dirname "$0")/program.sh"

hub=12010002090001406b1d020006060302010109021900010100e0000904000001090000000705810304000c
key=120100020000004050101100000100000001

# name(n): the n-th device; the first of each 255 is a hub
unplugs() {
    awk -v devices="$1" -v hub=$hub -v key=$key '
        function name(n, top) { top = int(n / 255) + 1; return n % 255 ? "1-" top "." n % 255 : "1-" top }
        BEGIN {
            print "usbguard-replay 1"; print "plug usb1 1 " hub " - - -"
            for (n = 0; n < devices; n++) print "plug " name(n) " 0 " (n % 255 ? key : hub) " - - -"
            for (n = 0; n < devices; n++) if (n % 255) print "unplug " name(n)
            for (n = 0; n < devices; n += 255) print "unplug " name(n)
            print "sweep 1"
        }'
}

# 7919 is a prime that no number of moves here is a multiple of, so that each call has its turn once
moves() {
    awk -v moves="$1" -v hub=$hub -v key=$key 'BEGIN {
        print "usbguard-replay 1"; print "plug usb1 1 " hub " - - -"
        for (n = 0; n < moves; n++) print "before " 1 + n * 7919 % moves (n % 2 ? " unplug 1-1" : " plug 1-1 0 " key " - - -")
        print "sweep 1"
    }'
}

run() {
    "$1" "$2" >"$folder/script"
    /usr/bin/time -f '%e %U %S %M' -o "$folder/time" "$program" replay <"$folder/script" >"$folder/out"
    awk -v what="$1" -v n="$2" -v last="$(tail -n 1 "$folder/out")" '{
        printf "%-8s %6d %8.2f s, of the processor %8.2f s %8d KiB peak  %s\n", what, n, $1, $2 + $3, $4, last
    }' "$folder/time"
}

many=${1:-20000}
for what in unplugs moves; do
    run $what "$many"
    run $what $((many * 2))
done
