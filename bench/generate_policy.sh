#!/bin/sh
# Times generate-policy on scripts of 16,000 and 64,000 devices, and prints the time of each, their ratio, and peak memory.
# It wants the built program (bin/build-usbguard builds it), awk, and GNU time as /usr/bin/time.
set -eu
. "$(dirname "$0")/program.sh"

# root hubs with 249 devices each
script() {
    awk -v n="$1" 'BEGIN {
        hub = "12010002090001406b1d020006060302010109021900010100e0000904000001090000000705810304000c"
        key = "12010002000000405010110000010102000109021b000201008032090400000003010100090401000003000000"
        print "usbguard-replay 1"
        for (i = 0; i < n; i++) {
            if (i % 250 == 0) printf "plug usb%d 1 %s - - -\n", ++bus, hub
            else printf "plug %d-%d 0 %s \"Key %d\" \"%d\" \"hotplug\"\n", bus, i % 250, key, i, i
        }
    }'
}

run() {
    script "$1" >"$folder/script"
    best=
    for _ in 1 2 3 4 5; do
        /usr/bin/time -f '%U %S %M' -o "$folder/time" "$program" generate-policy <"$folder/script" >"$folder/out"
        read -r user system peak <"$folder/time"
        best=$(awk -v best="$best" -v now="$user" -v more="$system" 'BEGIN { t = now + more; print best == "" || t < best ? t : best }')
    done
    printf '%d devices: %d rules, %s s, %s KB peak\n' "$1" "$(wc -l <"$folder/out")" "$best" "$peak"
}

run 16000
one=$best
run 64000
awk -v one="$one" -v four="$best" 'BEGIN { if (one > 0) printf "four times the devices take %.1f times the time\n", four / one }'
