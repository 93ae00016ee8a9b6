#!/bin/sh
# Times a first sweep over 4,096, 16,384 and 65,536 live devices of one id, all of which are judged: under a rule without a condition, under one
# that asks whether an allowed device has an id that none has, and under one that asks for an id that one has. It wants the built
# program (bin/build-usbguard builds it), awk, and GNU time as /usr/bin/time.
set -eu
. "$(dirname "$0")/program.sh"

hub=12010002090001406b1d020006060302010109021900010100e0000904000001090000000705810304000c
key=120100020000004050101100000100000001

# a controller, 255 devices at it, 255 at each of these, and more behind the first of all
script() {
    awk -v devices="$1" -v condition="$2" -v hub=$hub -v key=$key '
        function plug(name) { if (left-- > 0) print "plug " name " 0 " key " - - -" }
        BEGIN {
            left = devices - 1
            print "usbguard-replay 1"; print "rule allow 1d6b:0002"; print "rule allow 1050:0011" condition; print "plug usb1 1 " hub " - - -"
            for (top = 1; top <= 255; top++) {
                plug("1-" top)
                for (n = 1; n <= 255; n++) plug("1-" top "." n)
            }
            for (n = 1; n <= 255; n++) plug("1-1.1." n)
            print "sweep 1"
        }'
}

run() {
    script "$1" "$2" >"$folder/script"
    /usr/bin/time -f '%U %M' -o "$folder/time" "$program" replay <"$folder/script" >"$folder/out"
    awk -v devices="$1" -v what="$3" -v judged="$(grep -c '^judged.* allow ' "$folder/out")" '{
        printf "%5d devices, %-12s %d allowed: %6.2f s of the processor, %6.1f MB\n", devices, what ":", judged, $1, $2 / 1000
    }' "$folder/time"
}

for devices in 4096 16384 65536; do
    run $devices "" "no condition"
    run $devices " if !allowed-matches(1050:9999)" "none has it"
    run $devices " if allowed-matches(1d6b:0002)" "one has it"
done
