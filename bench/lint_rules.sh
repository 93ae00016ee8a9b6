#!/bin/sh
# Times lint-rules and lint-rules --prune on 4,096 rules, the most that it takes: some 8 million pairs. Prints what each said, seconds, and peak
# memory. It wants the built program (bin/build-usbguard builds it), awk, and GNU time as /usr/bin/time.
set -eu
. "$(dirname "$0")/program.sh"

# narrow ids, all different
narrow() {
    awk 'BEGIN { for (i = 0; i < 4096; i++) printf "allow id %04x:%04x\n", i, (i * 7) % 65536 }'
}

# as generate-policy makes them, of devices of one model
generated() {
    awk 'BEGIN {
        for (i = 0; i < 4096; i++)
            printf "allow id 046d:c31c serial \"%08d\" name \"USB Keyboard\" hash \"%08dwVls8slwmSO+6fs+0iCw6RjR+7jdOS5qWnej0=\" parent-hash \"UifcM5riWUglSXgfOD6TcVxlq6V0aYExxnpoqsaD/yE=\" with-interface { 03:01:01 03:00:00 } with-connect-type \"hotplug\"\n", i, i
    }'
}

# the same, telling their difference last
hashes() {
    awk 'BEGIN {
        for (i = 0; i < 4096; i++)
            printf "allow id 046d:c31c name \"USB Keyboard\" hash \"tAIpAbwVls8slwmSO+6fs+0iCw6RjR+7jdO%08d=\"\n", i
    }'
}

# 32 values each, none in two rules
sets() {
    awk 'BEGIN {
        for (i = 0; i < 4096; i++) {
            printf "allow name one-of {"
            for (k = 0; k < 32; k++) printf " \"a name of some length %d\"", i * 32 + k
            print " }"
        }
    }'
}

# one id, and 32 conditions each, of which none is sure
conditions() {
    awk 'BEGIN {
        for (i = 0; i < 4096; i++) {
            printf "allow id 046d:* if one-of {"
            for (k = 0; k < 32; k++) printf " rule-applied(%d)", i * 32 + k
            print " }"
        }
    }'
}

run() {
    "$1" >"$folder/rules"
    for flag in '' --prune; do
        /usr/bin/time -f '%U %M' -o "$folder/time" "$program" lint-rules $flag <"$folder/rules" >"$folder/out"
        read -r seconds peak <"$folder/time"
        echo "$1 $flag: $(tail -n 1 "$folder/out" | cut -c 1-40), $(wc -c <"$folder/rules") bytes, $seconds s, $((peak / 1024)) MB peak"
    done
}

for policy in narrow generated hashes sets conditions; do
    run "$policy"
done
