#!/bin/sh
# Fails each allocation of a run in turn, and says how the runs ended. Each has to end as the whole run does; or with status 6, and its
# output is then a front of the whole one, cut at a line, and the line `no memory`; or with status 5, where the output itself found no
# memory, and is then a front of the whole one. The status is 1 where one ended in another way.
# It wants the built program (bin/build-usbguard builds it) and a C compiler as cc.
set -eu
. "$(dirname "$0")/program.sh"

# malloc and realloc that count, and fail at one call
cat >"$folder/fail.c" <<'C'
#define _GNU_SOURCE
#include <dlfcn.h>
#include <errno.h>
#include <stdio.h>
#include <stdlib.h>
#include <unistd.h>
static long calls, failing = -1;
static int fails(void) {
    if (calls == 0 && getenv("FAILING")) failing = atol(getenv("FAILING"));
    if (++calls != failing) return 0;
    errno = ENOMEM;
    return 1;
}
void *malloc(size_t size) {
    static void *(*real)(size_t);
    if (!real) real = dlsym(RTLD_NEXT, "malloc");
    return fails() ? 0 : real(size);
}
void *realloc(void *old, size_t size) {
    static void *(*real)(void *, size_t);
    if (!real) real = dlsym(RTLD_NEXT, "realloc");
    return fails() ? 0 : real(old, size);
}
__attribute__((destructor)) static void tell(void) {
    char text[32];
    int length = snprintf(text, sizeof text, "%ld\n", calls);
    if (write(2, text, length) < 0) _exit(1);
}
C
cc -shared -fPIC -o "$folder/fail.so" "$folder/fail.c" -ldl

# a command's run with allocation $1 failing: its output and its status
once() {
    FAILING=$1 LD_PRELOAD=$folder/fail.so "$program" "$2" <"$3" >"$folder/out" 2>"$folder/calls" && told=0 || told=$?
}

# is_front: whether the output is a front of the whole one
is_front() {
    head -c "$(wc -c <"$folder/$1")" "$folder/whole" | cmp -s - "$folder/$1"
}

# is_cut: whether it is one that is cut at a line, and the line `no memory`
is_cut() {
    [ "$(tail -n 1 "$folder/out")" = "no memory" ] || return 1
    sed '$d' "$folder/out" >"$folder/front"
    is_front front && { [ ! -s "$folder/front" ] || [ -z "$(tail -c 1 "$folder/front")" ]; }
}

# all that were tried, and those that ended in another way
all=0
others=0

try() {
    once 0 "$1" "$2"
    whole=$told
    count=$(cat "$folder/calls")
    cp "$folder/out" "$folder/whole"
    n=1
    short=0
    cut=0
    odd=0
    while [ "$n" -le "$count" ]; do
        once "$n" "$1" "$2"
        if [ "$told" = 6 ] && is_cut; then
            short=$((short + 1))
        elif [ "$told" = 5 ] && is_front out; then
            cut=$((cut + 1))
        elif ! { [ "$told" = "$whole" ] && cmp -s "$folder/out" "$folder/whole"; }; then
            odd=$((odd + 1))
        fi
        n=$((n + 1))
    done
    echo "$1 on $(basename "$2"): status $whole, $count allocations, $short ended with no memory, $cut with a failed write, $odd in another way"
    all=$((all + count))
    others=$((others + odd))
}

hub=12010002090001406b1d020006060302010109021900010100e0000904000001090000000705810304000c
camera=12010002ef0201406d04250812000000020109022d0002010080fa09040000000e01000009040100000e02000009040101000e02000009040102000e020000
keyboard=12011001000000086d041cc300640102000109022200010100a0320904000001030101000921100100012241000705810308000a

# a laptop with its camera and its keyboard, and with the rules that it is given
laptop() {
    printf 'plug usb1 1 %s - - -\nplug usb2 1 %s - - -\n' $hub $hub
    printf 'plug 1-1 0 %s "USB Webcam" - "hotplug"\nplug 1-2 0 %s "USB Keyboard" - "hotplug"\n' $camera $keyboard
}
{ echo 'usbguard-replay 1' && laptop; } >"$folder/devices"
{
    echo 'usbguard-replay 1'
    "$program" generate-policy <"$folder/devices" | sed 's/^/rule /'
    laptop
    echo 'sweep 100'
} >"$folder/laptop.script"

# orders that are refused, each for its reason, and one that is answered
cat >"$folder/refusals.script" <<'S'
usbguard-replay 1
conf IPCAllowedUsers=root
order 101 root frobnicate
order 101 root list-devices now
order 101 root append-rule end temporary allow frob
order 101 root remove-rule 9
order 101 root get-parameter Foo
order 101 root set-parameter ImplicitPolicyTarget maybe
order 101 root get-parameter ImplicitPolicyTarget
S

# a machine that stops while a rule is saved, before the new text is in its place and behind that, and while the save before is tried again
cat >"$folder/stops.script" <<S
usbguard-replay 1
conf IPCAllowedUsers=root
rule block 0781:5567
plug usb1 1 $hub - - -
sweep 100
stop 2 old
order 101 root append-rule end permanent allow 1050:0012
stop 3 new
order 102 root append-rule end permanent allow 1050:0012
disk fail 2
order 103 root append-rule end permanent allow 1050:0011
stop 1 old
sweep 104
order 105 root list-rules
S

printf 'allow 1050:0011 name "a\\x41"\nblock if { true !random(0.5) }\n' >"$folder/rules"
printf '\022\001\000\002\000\000\000\100\120\020\021\000\000\001\000\000\000\001' >"$folder/device"
try replay "$root/examples/first.script"
try replay "$root/examples/replug.script"
try replay "$root/examples/race.script"
try replay "$root/examples/policy.script"
try replay "$folder/laptop.script"
try replay "$folder/refusals.script"
try replay "$folder/stops.script"
try check-rules "$folder/rules"
try read-descriptor "$folder/device"
echo "$all allocations were tried, and $others ended in another way"
[ "$others" = 0 ]
