#!/bin/sh
# Makes a clean Debian root, installs the package there, and shows what a new user would try. As root, with debootstrap and the network:
#
#   packaging/try-in-debian.sh PACKAGE.deb [FOLDER]
#
# FOLDER, which must not exist, is made and removed; without it that is a new one under /tmp. SUITE and MIRROR choose another Debian. BASE
# is a root that debootstrap made with the packages below, which is then copied.
# shellcheck disable=SC2059 # bytes are given as printf has them
set -eu
export LC_ALL=C
usage='usage: packaging/try-in-debian.sh PACKAGE.deb [FOLDER]'
package=$(realpath -e "${1:?$usage}")
root=${2:-$(mktemp -d /tmp/usbguard-debian-XXXXXX)/root}
suite=${SUITE:-bookworm}
mirror=${MIRROR:-}
[ ! -e "$root" ] || { echo "try-in-debian: $root is there already" >&2; exit 1; }
daemon=
trap 'stop; umount "$root/dev/pts" "$root/proc" 2>/dev/null || :; rm -rf --one-file-system "$root"; rmdir "${root%/root}" 2>/dev/null || :' EXIT

failures=0

# start: the daemon in the root, with its journal in /tmp/journal, as the service starts it
start() {
    install -d -m 755 "$root/run/usbguard"
    chroot "$root" usbguard daemon >"$root/tmp/journal" 2>&1 &
    daemon=$!
    chroot "$root" /usr/libexec/usbguard-sockets || :
}

stop() {
    [ -z "$daemon" ] || kill "$daemon" 2>/dev/null || :
    daemon=
}

# show COMMAND: a command line in the root, and its output
show() {
    printf '\n# %s\n' "$1"
    chroot "$root" sh -c "$1" 2>&1 || printf '(status %d)\n' $?
}

# check WHAT COMMAND: whether the command succeeds in the root
check() {
    if chroot "$root" bash -c "$2" >/dev/null 2>&1; then
        echo "ok: $1"
    else
        echo "FAILED: $1"
        failures=$((failures + 1))
    fi
}

# device NAME AUTHORIZED DESCRIPTORS: a folder with the files of a device; the descriptors as printf has them
device() {
    mkdir -p "$root/sys/bus/usb/devices" "$root/sys/made"
    printf '%s\n' "$2" >"$root/sys/made/authorized"
    echo 1 >"$root/sys/made/devnum"
    printf "$3" >"$root/sys/made/descriptors"
    case $1 in usb*) echo 1 >"$root/sys/made/authorized_default" ;; esac
    mv "$root/sys/made" "$root/sys/bus/usb/devices/$1"
}

echo "== A clean Debian $suite"
if [ -n "${BASE:-}" ]; then
    cp -a "$BASE" "$root"
else
    debootstrap --variant=minbase --include=bash-completion,man-db,mandoc,zsh "$suite" "$root" ${mirror:+"$mirror"} >"$root.log" 2>&1 ||
        { cat "$root.log"; exit 1; }
    rm -f "$root.log"
fi
chroot "$root" sh -c '. /etc/os-release; echo "$PRETTY_NAME"'

# terminals, and the processes, of which the daemon reads its own open files
mkdir -p "$root/dev/pts"
mount -t devpts -o ptmxmode=666 devpts "$root/dev/pts"
mount -t proc proc "$root/proc"

echo "== The package"
cp "$package" "$root/tmp/package.deb"
show 'dpkg -i /tmp/package.deb'
check 'settings and rules are made, and dpkg asks about neither' \
    'test -e /etc/usbguard/rules.conf && test ! -s /etc/usbguard/rules.conf && test -e /etc/usbguard/usbguard-daemon.conf && ! grep usbguard/ /var/lib/dpkg/info/$(dpkg-deb -f /tmp/package.deb Package).conffiles'
check 'usbguard --version tells the version of the package' \
    'dpkg-deb -f /tmp/package.deb Version | grep -q "^$(usbguard --version | cut -d " " -f 2)"'
show 'dpkg -L $(dpkg-deb -f /tmp/package.deb Package) | xargs ls -ld | grep -v ^d'
show 'ls -ld /etc/usbguard/*'

echo
case $(make -s -C "$(dirname "$0")/.." version PROGRAM=/bin/true 2>&1) in
*~unproved) echo "ok: the version of a package says so where its program isn't the proved one" ;;
*)
    echo "FAILED: the version of a package says so where its program isn't the proved one"
    failures=$((failures + 1))
    ;;
esac

if command -v lintian >/dev/null; then
    echo
    echo "== lintian"
    if lintian --allow-root --tag-display-limit 0 --fail-on error,warning "$package"; then
        echo "ok: no error and no warning"
    else
        echo "FAILED: lintian"
        failures=$((failures + 1))
    fi
fi

echo
echo "== Links in the documents"
documents=$(echo "$root"/usr/share/doc/usbguard*)
find "$documents" -name '*.md' | sort | while read -r page; do
    grep -o '](\([^):]*\))' "$page" | sed 's/](//; s/)$//; s/#.*//' | grep . | sort -u | while read -r link; do
        [ -e "$(dirname "$page")/$link" ] || [ -L "$(dirname "$page")/$link" ] || echo "${page#"$documents"/}: $link"
    done
done >"$root/tmp/dead"
cat "$root/tmp/dead"
check 'each link leads to a file' 'test ! -s /tmp/dead'

echo
echo "== Manual pages"
for page in '1 usbguard' '1 usbguard-script' '1 usbguard-check' '1 usbguard-access' '1 usbguard-policy' '1 usbguard-rule-parser' '1 usbguard-status' \
    '5 usbguard-daemon.conf' '5 usbguard-replay' '5 usbguard-rules.conf' '8 usbguard-daemon'; do
    check "man $page, with no warning" "man -w $page && LC_ALL=C.UTF-8 man --warnings -E UTF-8 $page 2>&1 >/dev/null | (! grep .)"
    check "mandoc -T lint of $page" 'mandoc -T lint $(man -w '"$page"')'
done

# A root hub and three devices. Plain files take the place of sysfs.
hub='\022\001\000\002\011\000\000\100\153\035\002\000\000\001\000\000\000\001'
key='\022\001\000\002\000\000\000\100\120\020\021\000\000\001\001\002\000\001\011\002\033\000\002\001\000\200\062'
key=$key'\011\004\000\000\000\003\001\001\000\011\004\001\000\000\003\000\000\000'
other='\022\001\000\002\000\000\000\100\120\020\022\000\000\001\000\000\000\001'
stranger='\022\001\000\002\000\000\000\100\120\020\023\000\000\001\000\000\000\001'
device usb1 1 "$hub"
device 1-1 0 "$key"
device 1-2 1 "$other"
printf 'Key\n' >"$root/sys/bus/usb/devices/1-1/product"
printf '0000:00:14.0\n' >"$root/sys/bus/usb/devices/usb1/serial"

echo "== From the package to a policy in force: a first policy of the devices that are there, a look at it, the daemon, and who watches"
show 'usbguard-script | usbguard generate-policy > /etc/usbguard/rules.conf; cat /etc/usbguard/rules.conf'
show 'usbguard-script -c /etc/usbguard/usbguard-daemon.conf -r /etc/usbguard/rules.conf | usbguard replay'
show 'useradd joe; useradd eve; printf "" | usbguard add-user joe --devices list > /etc/usbguard/IPCAccessControl.d/joe; grep . /etc/usbguard/IPCAccessControl.d/*'
echo
echo '# The service, by hand: there is no systemd here. A user alice is there, and none of the name alice.smith'
show 'useradd alice; printf "" | usbguard add-user alice.smith --devices list > /etc/usbguard/IPCAccessControl.d/alice.smith'
chroot "$root" /usr/libexec/usbguard-prepare rules hubs hashes
check 'before the daemon starts the root hub is closed: a device that comes is off until it is judged' 'grep -x 0 /sys/bus/usb/devices/usb1/authorized_default'
start
check "a socket isn't given to a user of another name" 'test "$(stat -c %U /run/usbguard/alice.smith.socket)" = root'
check 'and is given to the user of its name' 'test "$(stat -c %U /run/usbguard/joe.socket)" = joe'
show 'ls -l /run/usbguard'
show 'usbguard list-devices'
check 'the daemon closes it too, and tells it' \
    'for i in 1 2 3 4 5 6; do grep -qx "wrote 1 usb1 default-off done" /tmp/journal && exit; sleep 0.5; done; exit 1'
(sleep 2; device 1-3 1 "$stranger") &
show 'timeout 20 usbguard watch -n 2'
show 'usbguard list-devices | tail -n 1; cat /sys/bus/usb/devices/1-3/authorized'
show 'usbguard allow-device 4; cat /sys/bus/usb/devices/1-3/authorized'
show 'usbguard append-rule -t "allow 1050:0014"; usbguard list-rules | tail -n 1; usbguard remove-rule 4'
show 'usbguard append-rule "allow 1050:0015"; tail -n 1 /etc/usbguard/rules.conf; ls -l /etc/usbguard/rules.conf'
show 'usbguard block-device 4 -p; usbguard list-rules | tail -n 1; usbguard allow-device 4 -p; usbguard list-rules | tail -n 1'
show 'usbguard set-parameter ImplicitPolicyTarget reject; usbguard get-parameter ImplicitPolicyTarget'
show 'su joe -c "usbguard list-devices --socket /run/usbguard/joe.socket" | cut -c 1-30'
show 'su joe -c "usbguard block-device 2 --socket /run/usbguard/joe.socket"'
show 'su eve -c "usbguard list-devices --socket /run/usbguard/joe.socket"'
check 'joe may list devices' 'su joe -c "usbguard list-devices --socket /run/usbguard/joe.socket" | grep -q "^4: allow"'
check 'and give no order' 'su joe -c "usbguard block-device 2 --socket /run/usbguard/joe.socket" | grep -qx "refused 2 denied Devices modify"'
check "nor as root" 'su joe -c "usbguard block-device 2 --socket /run/usbguard/root.socket" | grep -qx "link fault"'
check "without --socket joe asks at his own" 'su joe -c "usbguard list-devices" | grep -q "^4: allow" && su joe -c "usbguard block-device 2" | grep -qx "refused 2 denied Devices modify"'
check 'standard error says which socket, why, and which sockets are there' \
    'su joe -c "usbguard list-devices --socket /run/usbguard/root.socket" 2>&1 | grep "^usbguard: /run/usbguard/root.socket: this user may not open it" && su joe -c "usbguard list-devices --socket /run/usbguard/root.socket" 2>&1 | grep -x "usbguard: this one is there: --socket=/run/usbguard/joe.socket" && su eve -c "usbguard list-devices" 2>&1 | (! grep joe.socket)'
check 'behind a policy of generate-policy a permanent verdict turns the rule of the device' \
    'usbguard block-device 2 -p && grep -q "^block id 1050:0011 " /etc/usbguard/rules.conf && ! grep -q "^allow id 1050:0011 " /etc/usbguard/rules.conf && usbguard allow-device 2 -p && grep -q "^allow id 1050:0011 " /etc/usbguard/rules.conf'
check "another user can't even connect" 'su eve -c "usbguard list-devices --socket /run/usbguard/joe.socket" | grep -qx "link fault"'
check 'a rule that was appended, and that of a permanent verdict, stand in the rule file, and nothing else is beside it' \
    'grep -qx "allow id 1050:0015" /etc/usbguard/rules.conf && grep "^allow id 1050:0013 " /etc/usbguard/rules.conf && ls /etc/usbguard | (! grep -v "^usbguard-daemon.conf$\|^rules.conf$\|^IPCAccessControl.d$\|^rules.d$")'
check 'a device that no rule names was blocked, and then allowed by order' \
    'grep -x "judged 4 1-3 block implicit" /tmp/journal && grep -x "judged 4 1-3 allow order root" /tmp/journal && grep -x 1 /sys/bus/usb/devices/1-3/authorized'
stop
check 'it stays closed when the daemon has ended' 'grep -x 0 /sys/bus/usb/devices/usb1/authorized_default'
rm -r "$root/sys/bus/usb/devices/1-3" "$root/etc/usbguard/IPCAccessControl.d/joe" "$root/etc/usbguard/IPCAccessControl.d/alice.smith" "$root/run/usbguard"

echo
echo "== Another kernel: the descriptors of the root hub hold its version"
# kernel MAJOR MINOR: as octal digits, of each root hub in the folder
kernel() {
    for hub_folder in "$root"/sys/bus/usb/devices/usb*; do
        printf "\\022\\001\\000\\002\\011\\000\\000\\100\\153\\035\\002\\000\\$2\\$1\\000\\000\\000\\001" >"$hub_folder/descriptors"
    done
}
# judged NAME VERDICT: what a command line in the root answers, by the rules as they are
judged() {
    echo "usbguard-script -r /etc/usbguard/rules.conf | usbguard replay | grep -q '^judged [0-9]* $1 $2'"
}
show 'usbguard-script | usbguard generate-policy > /etc/usbguard/rules.conf; cat /etc/usbguard/rules.conf'
old=$(sed -n 's/.* 1050:0011 .* parent-hash "\([^"]*\)".*/\1/p' "$root/etc/usbguard/rules.conf")
printf '# parent-hash "%s"\nallow name "a parent-hash \\"%s\\"" # hash "%s"\n' "$old" "$old" "$old" >>"$root/etc/usbguard/rules.conf"
cp "$root/etc/usbguard/rules.conf" "$root/tmp/old-rules"
check 'before the first start nothing is changed' '/usr/libexec/usbguard-prepare hashes && cmp /tmp/old-rules /etc/usbguard/rules.conf'
show 'cat /var/lib/usbguard/root-hubs'
kernel 006 014
check 'with the new kernel the key would be blocked' "$(judged 1-1 block)"
show '/usr/libexec/usbguard-prepare hashes; diff /tmp/old-rules /etc/usbguard/rules.conf'
check 'it is allowed' "$(judged 1-1 allow)"
check 'comments and other strings stay' 'tail -n 2 /tmp/old-rules >/tmp/1; tail -n 2 /etc/usbguard/rules.conf | cmp /tmp/1 -'
check 'owner and mode stay, and nothing is left beside the file' \
    'test "$(stat -c "%U %a" /etc/usbguard/rules.conf)" = "root 600" && ! ls /etc/usbguard | grep new'
kernel 001 000
check 'and with the old kernel again' "/usr/libexec/usbguard-prepare hashes && cmp /tmp/old-rules /etc/usbguard/rules.conf && $(judged 1-1 allow)"
mv "$root/sys/bus/usb/devices/usb1" "$root/sys/bus/usb/devices/usb4"
mv "$root/sys/bus/usb/devices/1-1" "$root/sys/bus/usb/devices/4-1"
kernel 006 014
check 'also where the bus has another number' "/usr/libexec/usbguard-prepare hashes && $(judged 4-1 allow)"
cp "$root/etc/usbguard/rules.conf" "$root/tmp/new-rules"
cp -a "$root/sys/bus/usb/devices/usb4" "$root/sys/bus/usb/devices/usb5"
kernel 006 015
show '/usr/libexec/usbguard-prepare hashes'
check 'where two hubs have one number, nothing is changed' 'cmp /tmp/new-rules /etc/usbguard/rules.conf'
rm -r "$root/sys/bus/usb/devices/usb5"
echo 'allow frob' >>"$root/etc/usbguard/rules.conf"
cp "$root/etc/usbguard/rules.conf" "$root/tmp/new-rules"
show '/usr/libexec/usbguard-prepare hashes'
check 'where a line is bad, nothing is changed' 'cmp /tmp/new-rules /etc/usbguard/rules.conf'
mv "$root/sys/bus/usb/devices/usb4" "$root/sys/bus/usb/devices/usb1"
mv "$root/sys/bus/usb/devices/4-1" "$root/sys/bus/usb/devices/1-1"
kernel 001 000

echo
echo "== Rules are rewritten by their tokens"
cat >"$root/tmp/rules" <<'END'
allow id 1050:0011 parent-hash "abc" name "a parent-hash \"abc\" b" # parent-hash "abc"
allow serial "1" parent-hash one-of { "abc" "def" } if allowed-matches(parent-hash "abc")
END
cat >"$root/tmp/wanted" <<'END'
allow id 1050:0011 name "a parent-hash \"abc\" b" # parent-hash "abc"
allow serial "1" if allowed-matches(parent-hash "abc")
END
check 'an attribute goes, and no string or comment that looks like it' 'usbguard-script -w parent-hash -r /tmp/rules | cmp - /tmp/wanted'
echo 'abc ghi' >"$root/tmp/hashes"
show 'usbguard-script -m /tmp/hashes -r /tmp/rules'
echo 'allow hash "abc" # x' >"$root/tmp/rules"
show 'usbguard-script -w hash -r /tmp/rules'
check 'a rule that would match every device ends it' '! usbguard-script -w hash -r /tmp/rules >/tmp/1 && test ! -s /tmp/1'

echo
echo "== Where a command waits for a terminal"
for command in 'add-user joe --devices list' check-rules generate-policy lint-rules read-descriptor replay; do
    check "$command says what it reads" "script -qec 'usbguard $command' /dev/null </dev/null | grep 'from the terminal, up to Ctrl-D'"
done
check 'not where its input comes from a file' 'usbguard check-rules </dev/null 2>&1 | (! grep terminal)'

echo
echo "== What usbguard-script says of itself"
check 'asked for it: on standard output, with status 0' 'usbguard-script --help 2>/dev/null | grep "^usage: usbguard-script" && usbguard-script -h | grep -e "  -w ATTRIBUTE"'
check 'behind a wrong option: on standard error, with status 1' 'usbguard-script -x 2>/tmp/1 | (! grep .) && grep "^usage:" /tmp/1 && { usbguard-script -x; test $? = 1; }'

echo
echo "== A policy in one word, with the original's options"
show 'usbguard-policy > /etc/usbguard/rules.conf; cat /etc/usbguard/rules.conf; usbguard-policy -d 1-1 -t block'
check 'a device without a serial number has its port, and one with a serial has none' \
    'usbguard-policy >/tmp/said && grep "^allow id 1050:0011 serial \"\" .* via-port \"1-1\"" /tmp/said && grep "^allow id 1d6b:0002 serial \"0000:00:14.0\"" /tmp/said | (! grep via-port)'
check 'each rule is one of generate-policy' \
    '{ usbguard-script | usbguard generate-policy; echo DeviceRulesWithPort=true >/tmp/ports; usbguard-script -c /tmp/ports | usbguard generate-policy; } >/tmp/all
    for words in "" -p -P "-pP" "-d 1-2" --with-ports --no-ports-sn; do usbguard-policy $words >/tmp/said && test -s /tmp/said && ! grep -vxF -f /tmp/all /tmp/said || exit 1; done'
check '-p: each has a port; -P: none has' 'usbguard-policy -p | (! grep -v via-port) && usbguard-policy -P | (! grep via-port)'
check '-d: that of the device alone, and -t: a last rule' \
    'usbguard-policy --devpath=/bus/usb/devices/1-1 --target=reject >/tmp/said && test "$(wc -l </tmp/said)" = 2 && grep "^allow id 1050:0011 " /tmp/said && tail -n 1 /tmp/said | grep -x reject'
check 'what it refuses it says, and writes no rule' \
    'for words in -X -H -L "-b x" "-t frob" "-d 1-9" "-d /x/1-1" "-d ../../../../etc" x -x; do ! usbguard-policy $words >/tmp/said 2>/tmp/2 && test ! -s /tmp/said && test -s /tmp/2 || exit 1; done
    usbguard-policy -X 2>&1 | grep "usbguard-script -w hash"; usbguard-policy --hash-only 2>&1 | grep "allow hash"'
check 'where there is no device, or no USB, no policy is written' \
    'mkdir -p /tmp/no-device && ! usbguard-policy -f /tmp/no-device >/tmp/said && ! usbguard-policy -f /nonexistent >>/tmp/said && test ! -s /tmp/said'
check 'a device whose descriptors are malformed is told' \
    'mkdir -p /sys/bus/usb/devices/1-6 && echo 0 >/sys/bus/usb/devices/1-6/authorized && printf x >/sys/bus/usb/devices/1-6/descriptors; usbguard-policy 2>&1 >/dev/null | grep "no rule for 1-6"; told=$?; rm -r /sys/bus/usb/devices/1-6; exit $told'

echo
echo "== Names of old"
printf 'allow 1050:0011 name "a\\x41" # key\n\n# no rule\n  block\n' >"$root/tmp/rules"
show 'usbguard-rule-parser -f /tmp/rules'
check 'usbguard-rule-parser shows each rule, and its canonical form' \
    'printf "%s\n" "INPUT: allow 1050:0011 name \"a\\x41\" # key" "OUTPUT: allow id 1050:0011 name \"aA\"" "INPUT:   block" "OUTPUT: block" | cmp - <(usbguard-rule-parser -f /tmp/rules) && usbguard-rule-parser block | grep -x "OUTPUT: block"'
check 'it refuses what is no rule, and what is no file' \
    'mkfifo /tmp/a-pipe; for words in frob "allow frob" "" "# x" -t -x; do ! usbguard-rule-parser "$words" >/tmp/said 2>/tmp/2 && test ! -s /tmp/said && test -s /tmp/2 || exit 1; done
    for file in /nonexistent /tmp /tmp/a-pipe; do ! timeout 10 usbguard-rule-parser -f $file 2>/tmp/2 && grep "this is no file" /tmp/2 || exit 1; done; rm /tmp/a-pipe'
check 'usbguard-daemon refuses what the daemon does not do, and says what does it' \
    'for word in -f -s -C -W; do ! usbguard-daemon $word 2>/tmp/2 && grep "systemctl start usbguard" /tmp/2 || exit 1; done; ! usbguard-daemon -P 2>/tmp/2 && grep "chown root:root" /tmp/2 && ! usbguard-daemon -x && ! usbguard-daemon x'
check 'usbguard-daemon is the daemon, with its process id and its journal in a file' \
    'rm -f /tmp/log /tmp/pid; usbguard-daemon -c /etc/usbguard/usbguard-daemon.conf -l /tmp/log -p /tmp/pid & sleep 3
    grep "^event 1 sweep " /tmp/log && test "$(cat /tmp/pid)" = $! && test "$(readlink /proc/$!/exe)" = /usr/bin/usbguard; good=$?; kill $!; exit $good'
check 'a pipe in the place of its files is not waited for' 'mkfifo /tmp/a-pipe; timeout 10 usbguard-daemon -l /tmp/a-pipe; test $? = 1 || exit 1; timeout 10 usbguard-daemon -p /tmp/a-pipe; test $? = 1; good=$?; rm /tmp/a-pipe; exit $good'

echo
echo "== Whether the machine is guarded"
rm -rf "$root/run/usbguard"
show 'usbguard-status'
check 'not without a daemon: status 1' 'usbguard-status >/tmp/said; test $? = 1 && tail -n 1 /tmp/said | grep -x "usbguard-status: the machine is NOT guarded" && ! usbguard-status -q | grep . && { usbguard-status -q; test $? = 1; }'
start
sleep 2
show 'usbguard-status'
check 'with one: status 0, and how many rules and devices there are' \
    'usbguard-status >/tmp/said && grep "^guard *runs since .*, and answers" /tmp/said && grep "^rules *$(usbguard list-rules | wc -l): " /tmp/said && grep "^devices *$(usbguard list-devices | wc -l): " /tmp/said && grep "^hubs *closed: usb1$" /tmp/said && grep "^unsettled *0$" /tmp/said && usbguard-status --quiet'
check 'who may not ask is told so, and no more' '! su eve -c usbguard-status >/tmp/said && grep "^guard  *NOT KNOWN TO RUN: .*this user may not open it" /tmp/said'
check 'an open hub is told' 'echo 1 >/sys/bus/usb/devices/usb1/authorized_default; usbguard-status | grep "^hubs *OPEN: usb1"; told=$?; echo 0 >/sys/bus/usb/devices/usb1/authorized_default; exit $told'
kill -STOP "$daemon" || :
check 'one that does not answer is no guard, and is waited for no longer than -w says' 'timeout 10 usbguard-status -w 2 >/tmp/said; test $? = 1 && grep "DOES NOT ANSWER: no answer within 2 s" /tmp/said'
kill -CONT "$daemon" || :
stop
check 'nor is a socket that is left' 'usbguard-status -q; test $? = 1'
check 'wrong options: status 2' 'for words in -x x "-w 0" "-w x"; do usbguard-status $words 2>/tmp/2; test $? = 2 && grep ^usage: /tmp/2 || exit 1; done'
rm -rf "$root/run/usbguard"

echo
echo "== The commands"
show 'cd /usr/share/doc/usbguard*/examples && usbguard replay < first.script'
show 'usbguard read-descriptor < /sys/bus/usb/devices/1-1/descriptors'
show "printf 'allow 1050:0011 name \"Key\"\n' > /etc/usbguard/rules.conf"
show 'usbguard check-rules < /etc/usbguard/rules.conf'
show 'usbguard lint-rules < /etc/usbguard/rules.conf'
show 'usbguard-script -c /etc/usbguard/usbguard-daemon.conf -r /etc/usbguard/rules.conf'
show 'usbguard-script -c /etc/usbguard/usbguard-daemon.conf -r /etc/usbguard/rules.conf | usbguard replay'
show 'timeout 3 usbguard daemon --conf /etc/usbguard/usbguard-daemon.conf'
show 'cd /sys/bus/usb/devices && grep . */authorized'
check 'the settings as they come are accepted, with no note' \
    'timeout 3 usbguard daemon | head -n 1 | grep "^event 1 sweep "'
echo
echo "== Whether the service starts: with a rule in the rule file, or in the folder of rules"
# has_rules STATUS WHAT: the status of the step that the service takes first
has_rules() {
    check "$2: status $1" "/usr/libexec/usbguard-prepare -c /tmp/settings rules; test \$? = $1"
}
mkdir "$root/tmp/rules.d"
: >"$root/tmp/none"
printf 'RuleFile=/tmp/none\nRuleFolder=/tmp/rules.d\n' >"$root/tmp/settings"
has_rules 78 'no rule'
echo 'allow id 1050:*' >"$root/tmp/rules.d/10-site.conf.bak"
has_rules 78 "a rule in a file of the folder that doesn't count"
mv "$root/tmp/rules.d/10-site.conf.bak" "$root/tmp/rules.d/10-site.conf"
has_rules 0 'a rule in the folder alone'
check 'by which the daemon judges' 'timeout 3 usbguard daemon --conf /tmp/settings | grep -x "judged [0-9]* 1-1 allow rule 1"'
rm -r "$root/tmp/rules.d"
has_rules 78 'the folder is absent'
echo allow >"$root/tmp/none"
has_rules 0 'a rule in the rule file alone'
: >"$root/tmp/none"
for line in ImplicitPolicyTarget=allow PresentDevicePolicy=keep PresentDevicePolicy=allow; do
    printf 'RuleFile=/tmp/none\n%s\n' "$line" >"$root/tmp/settings"
    has_rules 0 "no rule, and $line"
done
for line in ImplicitPolicyTarget=reject PresentDevicePolicy=block PresentControllerPolicy=allow; do
    printf 'RuleFile=/tmp/none\n%s\n' "$line" >"$root/tmp/settings"
    has_rules 78 "no rule, and $line"
done

echo
echo "== The hubs, as the settings say"
# hubs SETTING VALUE: with that line of settings the hub, which has 2, has the value behind the step
hubs() {
    check "$1: $2" "echo '$1' >/tmp/settings; echo 2 >/sys/bus/usb/devices/usb1/authorized_default
        /usr/libexec/usbguard-prepare -c /tmp/settings hubs && grep -x $2 /sys/bus/usb/devices/usb1/authorized_default"
}
hubs AuthorizedDefault=none 0
hubs ' AuthorizedDefault = none ' 0
hubs AuthorizedDefault=all 1
hubs AuthorizedDefault=keep 2
hubs AuthorizedDefault=internal 2
hubs '#AuthorizedDefault=none' 2
hubs RuleFile=none 2
check "a hub that can't be written is told" 'mkdir -p /tmp/devices/usb1/authorized_default && echo AuthorizedDefault=none >/tmp/settings
    ! /usr/libexec/usbguard-prepare -c /tmp/settings -d /tmp/devices hubs 2>/tmp/1 && grep -x "usbguard-prepare: can.t write 0 to /tmp/devices/usb1/authorized_default" /tmp/1'
echo 1 >"$root/sys/bus/usb/devices/usb1/authorized_default"
echo AuthorizedDefault=keep >"$root/tmp/settings"
show 'timeout 3 usbguard daemon --conf /tmp/settings | head -n 3'
check 'with keep a person is told that the hub is open' \
    'timeout 3 usbguard daemon --conf /tmp/settings 2>&1 >/dev/null | grep -x "usbguard: root hubs that switch on what comes to them: 1\. .*"'
show 'usbguard'
show 'usbguard daemon --conf /etc/absent'

echo
echo "== The kernel's own default for new root hubs, which a controller that comes later starts with"
mkdir -p "$root/sys/module/usbcore/parameters" "$root/tmp/empty" "$root/tmp/pipes"
# by_parameter FOUND SETTINGS WANTED WHAT: with FOUND there first, these words of AuthorizedDefault, a start each, leave WANTED; + is a
# start of the machine with 5 there, and . a write of 7 by another hand
by_parameter() {
    check "$4: $1, then $2: $3" "cd /sys/module/usbcore/parameters && echo $1 >authorized_default; rm -rf /tmp/state; boot=1
        for word in $2; do
            case \$word in
            +) boot=2; echo 5 >authorized_default ;;
            .) echo 7 >authorized_default ;;
            *) echo AuthorizedDefault=\$word >/tmp/settings
                STATE_DIRECTORY=/tmp/state /usr/libexec/usbguard-prepare -b \$boot -c /tmp/settings -d /tmp/empty hubs || exit ;;
            esac
        done; grep -x -e $3 authorized_default && ! ls /tmp/state | grep '\.'"
}
by_parameter -1 none 0 'none closes it'
by_parameter -1 all 1 'all opens it'
by_parameter 2 keep 2 'keep leaves it'
by_parameter -1 'none none all keep' -1 'what was found comes back'
by_parameter 0 'all + keep' 5 'but not that of an earlier start of the machine'
by_parameter 0 'all + none keep' 5 'only that of this start'
by_parameter 2 'none . none keep' 2 'nor what another hand wrote behind it'
by_parameter 1 'none keep . keep' 7 'once'
check 'and so does the removal of the package want it' 'grep "usbguard-prepare back" /var/lib/dpkg/info/*.prerm && cd /sys/module/usbcore/parameters && echo 2 >authorized_default
    echo AuthorizedDefault=none >/tmp/settings; rm -rf /tmp/state; export STATE_DIRECTORY=/tmp/state
    /usr/libexec/usbguard-prepare -b 3 -c /tmp/settings -d /tmp/empty hubs && grep -x 0 authorized_default && /usr/libexec/usbguard-prepare -b 3 back && grep -x 2 authorized_default && test ! -e /tmp/state/authorized_default'
check 'where the kernel has no such file nothing fails' 'rm /sys/module/usbcore/parameters/authorized_default
    echo AuthorizedDefault=none >/tmp/settings && STATE_DIRECTORY=/tmp/state /usr/libexec/usbguard-prepare -b 1 -c /tmp/settings -d /tmp/empty hubs 2>&1 | (! grep .) && test ! -e /sys/module/usbcore/parameters/authorized_default'
check "a file that can't be written is told, and the hubs are set all the same" 'mkdir -p /sys/module/usbcore/parameters/authorized_default
    ! /usr/libexec/usbguard-prepare -b 1 -c /tmp/settings hubs 2>/tmp/1 && grep "can.t write 0 to /sys/module/usbcore/parameters/authorized_default" /tmp/1 && grep -x 0 /sys/bus/usb/devices/usb1/authorized_default
    rmdir /sys/module/usbcore/parameters/authorized_default; rm -f /var/lib/usbguard/authorized_default'
check "the unit that prepares a start may write that file, and none any other of the kernel's parameters" \
    'grep -r "^ReadWritePaths=-/sys/module/usbcore/parameters/authorized_default$" /usr/lib/systemd/system/ && ! grep -r "^ReadWritePaths=.*/sys/module" /usr/lib/systemd/system/ | grep -v "parameters/authorized_default$"'

echo
echo "== A pipe in the place of a file of the service, which nobody ever writes"
# waits_for_none FILE TEXT COMMAND: with a pipe there, and this text of settings, the command ends
waits_for_none() {
    check "${3#/usr/libexec/}, where $1 is a pipe" "printf '$2' >/tmp/settings; rm -f $1; mkfifo $1; timeout 10 $3; status=\$?; rm -f $1; test \$status != 124"
}
waits_for_none /tmp/settings '' '/usr/libexec/usbguard-prepare -c /tmp/settings rules'
waits_for_none /tmp/settings '' '/usr/libexec/usbguard-prepare -c /tmp/settings hubs'
waits_for_none /tmp/settings '' '/usr/libexec/usbguard-sockets /tmp/settings'
waits_for_none /tmp/a-pipe 'RuleFile=/tmp/a-pipe\n' '/usr/libexec/usbguard-prepare -c /tmp/settings rules'
waits_for_none /tmp/pipes/10.conf 'RuleFolder=/tmp/pipes\n' "/usr/libexec/usbguard-prepare -c /tmp/settings rules"

echo
echo "== Completion"
mkdir -p "$root/run/usbguard"
touch "$root/run/usbguard/root.socket"
# what the daemon would list, at its socket and at another
listing='usbguard() {
    case $* in
    list-devices) printf "2: allow id 1050:0011\n14: block id 1050:0012\n" ;;
    list-rules) printf "1: allow id 1050:*\n3: block # temporary\n" ;;
    "list-devices --socket /run/usbguard/joe.socket" | "list-devices --socket=/run/usbguard/joe.socket") echo "7: allow" ;;
    esac
}'
bash='source /usr/share/bash-completion/completions/usbguard
complete_words() { COMP_WORDS=("$@"); COMP_CWORD=$(($# - 1)); "_${1//-/_}"; echo "${COMPREPLY[*]}"; }'
# completes WORDS.. WANTED: the last word is completed to this
completes() {
    check "bash: $1 -> $2" "$bash
        [ \"\$(complete_words $1)\" = '$2' ]"
}
completes "usbguard ''" 'add-user allow-device append-rule block-device check-rules daemon generate-policy get-parameter lint-rules list-devices list-rules make-script read-descriptor reject-device remove-rule replay set-parameter watch'
for command in check-rules daemon generate-policy lint-rules read-descriptor replay; do
    completes "usbguard ${command%???}" "$command"
done
chroot "$root" usbguard --help 2>&1 | awk '/^  usbguard / {
    printf "%s", $2
    for (i = 3; i <= NF; i++) if ($i ~ /^\[-/) { sub(/\]$/, "", $i); printf " %s", substr($i, 2) }
    print ""
}' >"$root/tmp/options"
# the sorted words; and whether the first words are the others, or long forms of them
sorted='tr " " "\n" | grep . | sort | tr "\n" " "'
are_options='are_options() { printf "%s\n" $2 | while read -r option; do [[ " $1 " == *" $option "* ]] || exit 1; done && ! printf "%s\n" $1 | grep -vxF -e "${2// /
}" | grep -v ^--; }'
check 'bash: the options of each command are those of --help, and their long forms' "$bash
    $are_options
    while read -r command wanted; do
        are_options \"\$(complete_words usbguard \$command -)\" \"\$wanted\" || exit 1
    done </tmp/options"
zsh='compadd() { print -r -- ${@:2}; }
_describe() { print -r -- ${${(P)2}%%:*}; }
_usbguard_words() { words=("$@"); CURRENT=$#; service=usbguard; . /usr/share/zsh/vendor-completions/_usbguard; }'
cat >"$root/tmp/options.zsh" <<END
setopt sh_word_split
$zsh
$are_options
[[ \$(_usbguard_words usbguard '' | $sorted) == \$(cut -d ' ' -f 1 /tmp/options | $sorted) ]] || exit 1
while read -r command wanted; do
    are_options "\$(_usbguard_words usbguard \$command - | tr '\n' ' ')" "\$wanted" || exit 1
done </tmp/options
END
check 'zsh: the commands, and the options of each, are those of --help, and their long forms' 'zsh -f /tmp/options.zsh'
completes "usbguard daemon --" '--conf'
completes "usbguard daemon --conf /etc/usbguard/u" '/etc/usbguard/usbguard-daemon.conf'
completes "usbguard check-rules '<' /etc/usbguard/rules.c" '/etc/usbguard/rules.conf'
completes "usbguard replay ''" ''
completes "usbguard list-rules --socket = /run/usbguard/r" '/run/usbguard/root.socket'
completes "usbguard watch --socket /run/usbguard/r" '/run/usbguard/root.socket'
completes "usbguard get-parameter ''" 'ImplicitPolicyTarget InsertedDevicePolicy'
completes "usbguard set-parameter ImplicitPolicyTarget ''" 'allow block reject'
completes "usbguard set-parameter InsertedDevicePolicy ''" 'apply-policy block reject'
completes "usbguard add-user joe --devices = modify,l" 'modify,list modify,listen'
completes "usbguard add-user joe --policy ''" 'modify list ALL'
completes "usbguard-script -" '--help -c -d -k -m -o -r -u -w'
completes "usbguard-script --h" '--help'
completes "usbguard-script -w ''" 'hash parent-hash'
completes "usbguard-policy -" '--devpath --help --no-ports-sn --target --with-ports -P -d -f -p -t'
completes "usbguard-policy --target = r" 'reject'
completes "usbguard-policy -d 1-" '1-1 1-2'
completes "usbguard-rule-parser -" '--file --help -f'
completes "usbguard-rule-parser --file /etc/usbguard/rules.c" '/etc/usbguard/rules.conf'
completes "usbguard-status -" '--help --quiet -d -q -w'
completes "usbguard-daemon -" '-K -c -d -h -k -l -p'
completes "usbguard-daemon -c /etc/usbguard/u" '/etc/usbguard/usbguard-daemon.conf'
bash="$bash
$listing"
completes "usbguard allow-device ''" '2 14'
completes "usbguard block-device -p 1" '14'
completes "usbguard reject-device --socket = /run/usbguard/joe.socket ''" '7'
completes "usbguard remove-rule ''" '1 3'
completes "usbguard append-rule -a ''" '1 3'
completes "usbguard append-rule ''" ''
completes "usbguard list-devices ''" ''
cat >"$root/tmp/numbers.zsh" <<END
$zsh
$listing
[[ \$(_usbguard_words usbguard allow-device '') == '2 14' && \$(_usbguard_words usbguard append-rule -a '') == '1 3' ]] || exit 1
[[ \$(_usbguard_words usbguard remove-rule '') == '1 3' && \$(_usbguard_words usbguard block-device --socket=/run/usbguard/joe.socket '') == 7 ]]
END
check 'zsh: numbers of devices and of rules' 'zsh -f /tmp/numbers.zsh'
completes "usbguard-script -r /etc/usbguard/rules.c" '/etc/usbguard/rules.conf'
completes "usbguard-script -r /etc/usbguard/rules.d" '/etc/usbguard/rules.d'
completes "usbguard-script -d /sys/bus/usb/d" '/sys/bus/usb/devices'
check 'bash-completion loads all by itself' \
    'source /usr/share/bash-completion/bash_completion
    for name in usbguard usbguard-script usbguard-check usbguard-access usbguard-policy usbguard-rule-parser usbguard-status usbguard-daemon; do
        _completion_loader $name
        complete -p $name
    done'
check 'zsh knows all' \
    "zsh -fc 'autoload -Uz compinit && compinit -D -u; for name in usbguard{,-script,-check,-access,-policy,-rule-parser,-status,-daemon}; do (( \$+_comps[\$name] )) || exit 1; done'"

# types SHELL KEYS WANTED: at the shell's prompt the keys give this command, as a function in the program's place shows it
types() {
    printf "$2\\n" >"$root/tmp/keys"
    check "$1, typed at: $2 -> $3" "{ sleep 2; cat /tmp/keys; sleep 2; printf 'exit\\n'; } | TERM=vt100 script -qec '$shell' /dev/null | grep -F '<$3>'"
}
mkdir -p "$root/run/usbguard"
touch "$root/run/usbguard/root.socket"
printf '%s\n' '. /usr/share/bash-completion/bash_completion; PS1=; usbguard() { printf "<%s>\n" "usbguard $*"; }' >"$root/tmp/rc"
shell='bash --rcfile /tmp/rc -i'
types bash 'usbguard list-ru\t --sock\t' 'usbguard list-rules --socket'
types bash 'usbguard list-rules --socket=/run/usbg\t' 'usbguard list-rules --socket=/run/usbguard/root.socket'
types bash 'usbguard add-user joe --devices=modify,listen --pol\t' 'usbguard add-user joe --devices=modify,listen --policy'
types bash 'usbguard set-parameter Imp\tbl\t' 'usbguard set-parameter ImplicitPolicyTarget block'
mkdir -p "$root/tmp/zsh"
echo 'autoload -Uz compinit; compinit -D -u; PS1=; usbguard() { print -r -- "<usbguard $*>" }' >"$root/tmp/zsh/.zshrc"
shell='env ZDOTDIR=/tmp/zsh zsh -i'
types zsh 'usbguard list-ru\t--sock\t' 'usbguard list-rules --socket'
types zsh 'usbguard list-rules --socket=/run/usbguard/r\t' 'usbguard list-rules --socket=/run/usbguard/root.socket'
types zsh 'usbguard set-parameter Imp\tbl\t' 'usbguard set-parameter ImplicitPolicyTarget block'
rm -r "$root/run/usbguard"

echo
echo "== A root hub that isn't there at the start with another kernel, as that of a dock"
cp -a "$root/sys/bus/usb/devices/usb1" "$root/sys/bus/usb/devices/usb7"
printf '0000:3a:00.0\n' >"$root/sys/bus/usb/devices/usb7/serial"
device 7-1 0 "$key"
show 'usbguard-script | usbguard generate-policy > /etc/usbguard/rules.conf; /usr/libexec/usbguard-prepare hashes'
mkdir "$root/tmp/dock"
mv "$root/sys/bus/usb/devices/usb7" "$root/sys/bus/usb/devices/7-1" "$root/tmp/dock"
kernel 006 022
show '/usr/libexec/usbguard-prepare hashes'
mv "$root/tmp/dock/usb7" "$root/tmp/dock/7-1" "$root/sys/bus/usb/devices/"
kernel 006 022
check 'its rule has the hash that it has when it comes' \
    'hash=$(usbguard-script -u | sed -n "s/ .* \"0000:3a:00.0\"$//p"); grep "^allow id 1d6b:0002 serial \"0000:3a:00.0\" .* hash \"$hash\"" /etc/usbguard/rules.conf && grep "^allow id 1050:0011 .* parent-hash \"$hash\"" /etc/usbguard/rules.conf'
check 'it is allowed where it comes later, and so is the key behind it' \
    '{ usbguard-script -d /tmp/dock -c /etc/usbguard/usbguard-daemon.conf -r /etc/usbguard/rules.conf; usbguard-script | grep ^plug; echo sweep 5000000000; } >/tmp/later
    usbguard replay </tmp/later >/tmp/1; grep -q "^judged [0-9]* usb7 allow rule" /tmp/1 && grep -q "^judged [0-9]* 7-1 allow rule" /tmp/1'
kernel 001 000
check 'the other way the rules have the hashes of the original USBGuard' \
    '/usr/libexec/usbguard-carry -o && usbguard-script -u | while read -r own original rest; do ! grep -F "$own" /etc/usbguard/rules.conf && grep -F "$original" /etc/usbguard/rules.conf || exit 1; done'
check 'and this program knows them again' '/usr/libexec/usbguard-carry; usbguard-script -u | while read -r own rest; do grep -F "$own" /etc/usbguard/rules.conf || exit 1; done'
mkdir "$root/tmp/away"
mv "$root/sys/bus/usb/devices/usb7" "$root/sys/bus/usb/devices/7-1" "$root/tmp/away"
show 'usbguard-script | usbguard generate-policy > /etc/usbguard/rules.conf'
start
sleep 2
mv "$root/tmp/away/usb7" "$root/sys/bus/usb/devices/"
sleep 2
show 'usbguard list-devices; cat /sys/bus/usb/devices/usb7/authorized'
check 'one that no rule allows is off, and by the commands of docs/locked-out.md it is on, with a rule' \
    'grep -x 0 /sys/bus/usb/devices/usb7/authorized && number=$(usbguard list-devices | grep " id 1d6b:" | sed -n "s/^\([0-9]*\): block .*/\1/p") && usbguard allow-device "$number" -p && grep -x 1 /sys/bus/usb/devices/usb7/authorized && grep "^allow id 1d6b:0002 serial \"0000:3a:00.0\"" /etc/usbguard/rules.conf'
stop
rm -r "$root/sys/bus/usb/devices/usb7" "$root/tmp/away" "$root/tmp/dock" "$root/run/usbguard"

echo
echo "== Where another user may write to the folder of the rule file, he plants a link right before the new file is written"
cat >"$root/tmp/plant" <<'END'
#!/bin/sh
ln -sfn /root/precious /srv/theirs/rules.conf.new
exec /usr/bin/cp "$@"
END
check 'nothing of root is overwritten, and the rule file stays' \
    'usbguard-script | usbguard generate-policy >/root/right
    install -d -o nobody /srv/theirs; hash=$(usbguard-script -u | cut -d " " -f 1); other=$(usbguard-script -u | cut -d " " -f 2)
    sed "s|$hash|$other|" /root/right >/srv/theirs/rules.conf; cp /srv/theirs/rules.conf /root/rules.before; echo precious >/root/precious
    mkdir /tmp/planted && install /tmp/plant /tmp/planted/cp
    echo RuleFile=/srv/theirs/rules.conf >/tmp/settings
    PATH=/tmp/planted:$PATH /usr/libexec/usbguard-carry /tmp/settings 2>/tmp/said
    grep -qx precious /root/precious && cmp /root/rules.before /srv/theirs/rules.conf && grep "another user than root may write to its folder" /tmp/said'

echo
echo "== What a start would refuse, told at once"
show 'usbguard-check'
check 'the settings and rules as they are' 'usbguard-check | grep -x "usbguard-check: a start takes all of it, with [0-9]* rules"'
mkdir -p "$root/srv/bad/access" "$root/srv/bad/rules.d"
printf 'RuleFile=/srv/bad/rules\nRuleFolder=/srv/bad/rules.d\nFrob=1\nIPCAccessControlFiles=/srv/bad/access\nImplicitPolicyTarget=frob\nRuleFile=/x\n' >"$root/srv/bad/settings"
printf 'Devices=frob\nFrob\nPolicy=list\n' >"$root/srv/bad/access/joe"
: >"$root/srv/bad/access/joe~"
printf 'allow frob\n\nallow id 1050:*\nblock name "x\n' >"$root/srv/bad/rules.d/10.conf"
printf '# one\nallow id 1050:0011\npermit\n' >"$root/srv/bad/rules"
chmod 666 "$root/srv/bad/rules.d/10.conf"
show 'usbguard-check -c /srv/bad/settings'
check 'every fault is told, and the status is 1' 'usbguard-check -c /srv/bad/settings >/tmp/said; test $? = 1 || exit 1
    for place in "settings, line 3" "settings, line 5" "settings, line 6" "access/joe, line 1" "access/joe, line 2" "access/joe~" "rules.d/10.conf: it isn" "rules, line 3"; do
        grep "^/srv/bad/$place" /tmp/said || exit 1; done; ! grep "line 2[^0-9].*rules\|Policy=list" /tmp/said'
chmod 644 "$root/srv/bad/rules.d/10.conf"
check 'of a file of rules too' 'usbguard-check -c /srv/bad/settings | grep -c "^/srv/bad/rules.d/10.conf, line [14]," | grep -x 2'
printf 'RuleFile=/srv/bad/rules\n' >"$root/srv/bad/settings"
printf 'allow id 1050:*\nallow id 1050:0011\nblock if false\n' >"$root/srv/bad/rules"
check 'rules that never decide, and a device that would be blocked' 'usbguard-check -c /srv/bad/settings >/tmp/said && grep "^/srv/bad/rules, line 2: this rule never decides, since /srv/bad/rules, line 1 does" /tmp/said && grep "^/srv/bad/rules, line 3: this rule never decides: its conditions" /tmp/said
    sed -i 1,2d /srv/bad/rules; usbguard-check -c /srv/bad/settings | grep -x "1-1: a device that is there now gets block (implicit)"'
check 'no rule at all' ': >/srv/bad/rules; usbguard-check -c /srv/bad/settings >/tmp/said; test $? = 1 && grep "there is no rule in /srv/bad/rules" /tmp/said'
check 'wrong options: 2' 'usbguard-check -x 2>/tmp/1; test $? = 2 && grep ^usage: /tmp/1'

echo
echo "== Access files by one command"
show 'usbguard-access add joe --devices list && usbguard-access add joe --devices listen --policy list && usbguard-access set :users --parameters ALL && usbguard-access show; ls -l /etc/usbguard/IPCAccessControl.d'
check 'a text that goes to no file is told to grant nothing' 'usbguard add-user joe --devices list </dev/null 2>&1 >/dev/null | grep "IPCAccessControl.d, where usbguard-access add puts it.*systemctl restart usbguard" && usbguard add-user joe --devices list </dev/null 2>&1 | grep -x Devices=list'
check 'and one that goes to a file is not, nor is a wrong word' 'usbguard add-user joe --devices list </dev/null 2>/tmp/2 >/tmp/1 && test ! -s /tmp/2 && ! usbguard add-user joe --devices frob 2>&1 </dev/null | grep "grants nothing"'
check 'what was granted stands in the file, which root alone may read' \
    'printf "Devices=list,listen\nPolicy=list\n" | cmp - /etc/usbguard/IPCAccessControl.d/joe && [ "$(stat -c "%U %a" /etc/usbguard/IPCAccessControl.d/joe)" = "root 600" ]'
check 'set grants just that' 'usbguard-access set joe --devices list && echo Devices=list | cmp - /etc/usbguard/IPCAccessControl.d/joe'
check 'a wrong word or name changes nothing' \
    '! usbguard-access add joe --devices frob && ! usbguard-access add joe~ --devices list && ! usbguard-access add ../joe --devices list && echo Devices=list | cmp - /etc/usbguard/IPCAccessControl.d/joe && ls /etc/usbguard/IPCAccessControl.d | (! grep -v -x -e joe -e :users)'
check 'it says when it counts, and who is unknown' 'usbguard-access add nobody9 --devices list 2>&1 | grep "systemctl restart usbguard" && usbguard-access add nobody9 --devices list 2>&1 | grep "knows nobody of the name nobody9"'
check 'remove takes it away' 'usbguard-access remove joe && usbguard-access remove nobody9 && usbguard-access remove :users && test -z "$(ls -A /etc/usbguard/IPCAccessControl.d)" && ! usbguard-access remove joe'
check 'nothing is written where another may put a file' \
    'usbguard-access --help && mkdir -p /srv/open && chmod 777 /srv/open && echo IPCAccessControlFiles=/srv/open >/srv/bad/settings && ! usbguard-access -c /srv/bad/settings add joe --devices list && test -z "$(ls -A /srv/open)"'

echo
echo "== One policy for many machines, by the commands of docs/fleet.md"
mkdir "$root/tmp/fleet"
sed -n '/^## Rules that fit/,/^## Try them/s/^ \{6\}//p' "$root"/usr/share/doc/usbguard*/docs/fleet.md >"$root/tmp/fleet/1"
sed -n '/^## Try them/,/^## A package/s/^    //p' "$root"/usr/share/doc/usbguard*/docs/fleet.md | grep -v '^desk-2 ' >"$root/tmp/fleet/2"
sed -n '/^## A package/,/^## The journals/s/^    //p' "$root"/usr/share/doc/usbguard*/docs/fleet.md | sed '/^install -d/,$d' >"$root/tmp/fleet/3"
sed -n '/^## A package/,/^## The journals/s/^    //p' "$root"/usr/share/doc/usbguard*/docs/fleet.md | sed -n '/^install -d/,$p' >"$root/tmp/fleet/4"
show 'cd /tmp/fleet && cat 1 2 3 4'
show 'cd /tmp/fleet && sh -e 1 && cat all.rules && sh -e 2 && sh -e 3'
check 'the rules name no root hub by parent-hash, and are good' 'grep "^allow id 1050:0011" /tmp/fleet/all.rules && ! grep parent-hash /tmp/fleet/all.rules && usbguard check-rules </tmp/fleet/all.rules'
echo 'block' >"$root/tmp/fleet/all.rules"
check 'where a policy is rehearsed, a device that would be blocked is told with its machine' "cd /tmp/fleet && sh -e 2 | grep \"^\$(hostname) judged [0-9]* 1-1 block rule 1\""
check 'the package puts the policy in its place' 'cd /tmp/fleet && sh -e 1 && sh -e 3 && dpkg -i site-usb-policy_1_all.deb && cmp all.rules /etc/usbguard/rules.conf && [ "$(stat -c "%U %a" /etc/usbguard/rules.conf)" = "root 600" ]'
check 'and not where it is bad' 'cd /tmp/fleet && echo frob >all.rules && cp /etc/usbguard/rules.conf before && sh -e 3 && ! dpkg -i site-usb-policy_1_all.deb && cmp before /etc/usbguard/rules.conf; dpkg -P site-usb-policy'
check 'a policy in the folder of rules' 'cd /tmp/fleet && sh -e 1 && sh -e 3 && dpkg -i site-usb-policy_1_all.deb && sh -e 4 && ls /etc/usbguard/rules.d | grep -x 50-site.conf && usbguard-check | grep "a start takes all"; good=$?; rm /etc/usbguard/rules.d/50-site.conf; dpkg -P site-usb-policy; exit $good'

echo
echo "== The package goes"
show 'dpkg -r $(dpkg-deb -f /tmp/package.deb Package)'
check 'settings and rules stay' 'test -e /etc/usbguard/rules.conf && test -e /etc/usbguard/usbguard-daemon.conf'
show 'dpkg -P $(dpkg-deb -f /tmp/package.deb Package)'
check 'nothing is left' 'test ! -e /etc/usbguard && test ! -e /usr/bin/usbguard'

echo
echo "$failures failed"
[ "$failures" -eq 0 ]
