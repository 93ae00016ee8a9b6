#!/bin/sh
# Makes clean Debian roots with the original USBGuard under a real systemd, installs the package over it, and shows what an administrator
# finds then. As root, with debootstrap, systemd-nspawn, nsenter and the network:
#
#   packaging/try-moving.sh PACKAGE.deb [FOLDER]
#
# FOLDER, which must not exist, is made and removed; without it that is a new one under /tmp. SUITE and MIRROR choose another Debian. BASE
# is a root that an earlier run kept: with KEEP=FOLDER it is copied there. Plain files take the place of sysfs: a root hub, a key that the
# rules of the original allow, and a stranger.
# shellcheck disable=SC2059 # bytes are given as printf has them
set -eu
export LC_ALL=C
usage='usage: packaging/try-moving.sh PACKAGE.deb [FOLDER]'
package=$(realpath -e "${1:?$usage}")
work=${2:-$(mktemp -d /tmp/usbguard-moving-XXXXXX)/work}
suite=${SUITE:-bookworm}
[ ! -e "$work" ] || { echo "try-moving: $work is there already" >&2; exit 1; }
mkdir -p "$work"
root=$work/root
machine=
trap 'halt; rm -rf --one-file-system "$work"; rmdir "${work%/work}" 2>/dev/null || :' EXIT
failures=0

# device FOLDER ID PRODUCT SERIAL DESCRIPTORS: the files of a device, as the original and this program read them
device() {
    mkdir -p "$1"
    printf "$5" >"$1/descriptors"
    printf '%s\n' "$3" >"$1/product"
    printf '%s\n' "$4" >"$1/serial"
    printf '%s\n' "${2%:*}" >"$1/idVendor"
    printf '%s\n' "${2#*:}" >"$1/idProduct"
    for file in authorized authorized_default devnum busnum bConfigurationValue; do echo 1 >"$1/$file"; done
    printf 'DEVTYPE=usb_device\nDRIVER=usb\n' >"$1/uevent"
}

# fake_sysfs: what stands at /sys/devices and /sys/bus in the machine
fake_sysfs() {
    sys=$root/root/sys
    controller=$sys/devices/pci0000:00/0000:00:14.0
    device "$controller/usb1" 1d6b:0002 'xHCI Host Controller' 0000:00:14.0 \
        '\022\001\000\002\011\000\001\100\153\035\002\000\001\006\003\002\001\001\011\002\031\000\001\001\000\340\000\011\004\000\000\001\011\000\000\000\007\005\201\003\004\000\014'
    echo DRIVER=xhci_hcd >"$controller/uevent"
    : >"$sys/devices/pci0000:00/uevent"
    device "$controller/usb1/1-1" 1050:0011 Key 42 \
        '\022\001\000\002\000\000\000\100\120\020\021\000\000\001\001\002\000\001\011\002\022\000\001\001\000\200\062\011\004\000\000\000\003\001\001\000'
    mkdir -p "$controller/usb1/1-1/port" "$sys/bus/usb/devices"
    echo hotplug >"$controller/usb1/1-1/port/connect_type"
    ln -s ../../../devices/pci0000:00/0000:00:14.0/usb1 "$sys/bus/usb/devices/usb1"
    ln -s ../../../devices/pci0000:00/0000:00:14.0/usb1/1-1 "$sys/bus/usb/devices/1-1"
}

boot() {
    systemd-nspawn --quiet --boot --register=no --keep-unit --private-network --directory="$root" >"$work/console" 2>&1 </dev/null &
    machine=$!
    tries=200
    until leader=$(pgrep -P "$machine") && run 'systemctl is-active multi-user.target'; do
        tries=$((tries - 1))
        [ $tries -gt 0 ] || { cat "$work/console"; exit 1; }
        sleep 0.3
    done
    run 'mount --bind /root/sys/devices /sys/devices && mount --bind /root/sys/bus /sys/bus'
}

halt() {
    [ -n "$machine" ] || return 0
    run 'systemctl poweroff' || kill "$machine" 2>/dev/null || :
    wait "$machine" 2>/dev/null || :
    machine=
}

# run COMMAND: in the machine, whose output is lost
run() {
    nsenter --target "$leader" --all sh -c "$1" >/dev/null 2>&1
}

# show COMMAND: a command line in the machine, and its output
show() {
    printf '\n# %s\n' "$1"
    nsenter --target "$leader" --all sh -c "$1" 2>&1 </dev/null || printf '(status %d)\n' $?
}

# check WHAT COMMAND: whether the command succeeds in the machine
check() {
    if run "$2"; then
        echo "ok: $1"
    else
        echo "FAILED: $1"
        failures=$((failures + 1))
    fi
}

# begin: a new machine with the original, as apt-get left it
begin() {
    halt
    rm -rf --one-file-system "$root"
    cp -a "$work/base" "$root"
    cp "$package" "$root/root/package.deb"
    cp "$work/next.deb" "$root/root/next.deb"
    mkdir -p "$root/root/other/DEBIAN" "$root/root/other/etc/usbguard/rules.d"
    printf 'Package: other\nVersion: 1\nArchitecture: all\nMaintainer: Site <root@localhost>\nDescription: rules of a site\n' >"$root/root/other/DEBIAN/control"
    echo 'allow id 1050:0078' >"$root/root/other/etc/usbguard/rules.d/50-other.conf"
    fake_sysfs
    boot
}

echo "== Debian $suite with the original USBGuard"
if [ -n "${BASE:-}" ]; then
    cp -a "$BASE" "$work/base"
else
    debootstrap --variant=minbase --include=systemd,systemd-sysv,dbus "$suite" "$work/base" ${MIRROR:+"$MIRROR"} >"$work/log" 2>&1 ||
        { cat "$work/log"; exit 1; }
    printf '#!/bin/sh\nexit 101\n' >"$work/base/usr/sbin/policy-rc.d"
    chmod +x "$work/base/usr/sbin/policy-rc.d"
    chroot "$work/base" apt-get install -y --no-install-recommends usbguard >"$work/log" 2>&1 || { cat "$work/log"; exit 1; }
    rm "$work/base/usr/sbin/policy-rc.d"
    [ -z "${KEEP:-}" ] || cp -a "$work/base" "$KEEP"
fi
# The same package with a later version.
dpkg-deb -R "$package" "$work/next"
sed -i 's/^Version: .*/&.1/' "$work/next/DEBIAN/control"
dpkg-deb --root-owner-group -Zgzip -z1 --build "$work/next" "$work/next.deb" >/dev/null
name=$(dpkg-deb -f "$package" Package)

# ours: what holds wherever our package has taken the place of the original
ours() {
    check 'our unit is there, and is the one that systemd has' \
        "dpkg -V $name && systemctl cat usbguard | grep -q '^ExecStart=.*/usr/bin/usbguard daemon' && systemctl show -p FragmentPath usbguard | grep -q /lib/systemd/system/usbguard.service"
    check "the original's start scripts make no service" \
        'test ! -x /etc/init.d/usbguard && test ! -x /etc/init.d/usbguard-dbus && ! systemctl is-active usbguard-dbus'
    check 'dpkg asked nothing, and left the settings and rules of before' \
        'cmp /etc/usbguard/usbguard-daemon.conf /root/settings && test ! -e /etc/usbguard/usbguard-daemon.conf.dpkg-dist'
}

# guards: our daemon runs, by the rules of the original
guards() {
    check 'our daemon runs' 'systemctl is-active usbguard && grep -qa "usbguard.daemon" /proc/$(systemctl show --value -p MainPID usbguard)/cmdline'
    check 'the key is allowed by its rule, whose parent is a root hub' \
        'for i in 1 2 3 4 5 6 7 8 9; do journalctl -o cat -u usbguard | grep -q "^judged 2 1-1 allow rule 2" && exit; sleep 0.5; done; exit 1'
    check 'usbguard-status says that the machine is guarded, since when, and that no save is pending' \
        'usbguard-status >/tmp/said && grep "^guard *runs since .* UTC, and answers$" /tmp/said && grep "^save *none pending$" /tmp/said'
}

# hub VALUE WHEN: the root hub's authorized_default
hub() {
    check "$2 the root hub's authorized_default is $1" "grep -x $1 /sys/bus/usb/devices/usb1/authorized_default"
}

# policy: the original has rules for the devices that are there
policy='usbguard generate-policy > /etc/usbguard/rules.conf; cp -p /etc/usbguard/rules.conf /root/rules; cp /etc/usbguard/usbguard-daemon.conf /root/settings'

echo
echo "== dpkg -i over the original, which is enabled and runs"
begin
show "$policy; systemctl restart usbguard; sleep 1; systemctl is-enabled usbguard; systemctl is-active usbguard; usbguard list-devices"
show 'dpkg -i /root/package.deb'
show 'systemctl is-enabled usbguard; systemctl is-active usbguard; journalctl -o cat -u usbguard | grep -v -e ^event -e ^end | tail -n 12'
ours
guards
hub 0 'with the original'"'"'s AuthorizedDefault=none'
check 'it is enabled still' 'systemctl is-enabled usbguard'
check 'a root hub has its own hash in the rules, and nothing else is changed' \
    'diff /root/rules /etc/usbguard/rules.conf | grep -c "^>" | grep -qx 2'
show 'diff /root/rules /etc/usbguard/rules.conf'

echo
echo "== An upgrade, which runs the new program"
show 'systemctl show -p MainPID usbguard; dpkg -i /root/next.deb; systemctl show -p MainPID usbguard'
ours
guards
hub 0 'behind it'
check 'the program that runs is the one that is installed' \
    '[ "$(readlink /proc/$(systemctl show --value -p MainPID usbguard)/exe)" = /usr/bin/usbguard ]'
check 'it is enabled still' 'systemctl is-enabled usbguard'

echo
echo "== A stop, a kill and a start that fails"
show 'systemctl stop usbguard'
hub 0 'behind a stop'
run 'echo 1 >/sys/bus/usb/devices/usb1/authorized_default; echo Frob=1 >>/etc/usbguard/usbguard-daemon.conf'
show 'systemctl start usbguard; systemctl is-active usbguard; journalctl -o cat -u usbguard | tail -n 4'
check "the service doesn't run" '! systemctl is-active usbguard'
hub 0 'behind a start that failed, before which it was 1,'
run 'cp -p /root/settings /etc/usbguard/usbguard-daemon.conf; systemctl start usbguard'
guards
check 'the daemon tells its own write' 'journalctl -o cat -u usbguard | grep -x "wrote 1 usb1 default-off done"'
run 'systemctl kill -s KILL usbguard; sleep 0.3'
hub 0 'behind a kill'
show 'for i in $(seq 20); do systemctl is-active usbguard && break; sleep 1; done'
guards
hub 0 'behind the start that follows it'

echo
echo "== Our package is removed, and installed again"
show "dpkg -r $name 2>&1 | tee /root/removal; systemctl is-active usbguard; ls -l /etc/systemd/system/*/usbguard.service; ls /etc/usbguard"
hub 1 'behind the removal'
check 'and the package has said so' 'grep "authorized_default of the root hubs is 1 again" /root/removal'
show 'dpkg -i /root/package.deb'
ours
guards
hub 0 'behind the installation'
check 'it is enabled still' 'systemctl is-enabled usbguard'

echo
echo "== The original is purged"
show 'cp -a /etc/usbguard /root/usbguard.kept; dpkg --purge usbguard'
check 'settings and rules are there, the service is enabled and runs, and nothing of our package is missing' \
    "cmp /etc/usbguard/rules.conf /root/usbguard.kept/rules.conf && cmp /etc/usbguard/usbguard-daemon.conf /root/settings && systemctl is-enabled usbguard && systemctl is-active usbguard && dpkg -V $name"
show 'systemctl restart usbguard; sleep 1; systemctl is-active usbguard'
guards

echo
echo "== Ours is purged"
show "dpkg -P $name; systemctl daemon-reload; systemctl is-enabled usbguard; ls -d /etc/usbguard /var/lib/usbguard /usr/lib/systemd/system/usbguard.service"
check 'nothing is left' 'test ! -e /etc/usbguard && test ! -e /var/lib/usbguard && test ! -e /usr/lib/systemd/system/usbguard.service && ! ls /etc/systemd/system/*/usbguard.service'

echo
echo "== apt-get install over the original, which is enabled and runs"
begin
show "$policy; systemctl restart usbguard; sleep 1; systemctl is-active usbguard"
show 'DEBIAN_FRONTEND=noninteractive apt-get install -y /root/package.deb 2>&1 | grep -v ^Reading'
ours
guards
check 'it is enabled still' 'systemctl is-enabled usbguard'

echo
echo "== dpkg -i over the original, which is disabled and stopped"
begin
show "$policy; systemctl disable --now usbguard usbguard-dbus 2>&1; systemctl is-enabled usbguard; systemctl is-active usbguard"
show 'dpkg -i /root/package.deb'
ours
check 'it is disabled still, and not started' '! systemctl is-enabled usbguard && ! systemctl is-active usbguard'
show 'systemctl start usbguard; sleep 1; systemctl is-active usbguard'
guards

echo
echo "== AuthorizedDefault=keep"
run 'echo 1 >/sys/bus/usb/devices/usb1/authorized_default; sed -i "s/^AuthorizedDefault=.*/AuthorizedDefault=keep/" /etc/usbguard/usbguard-daemon.conf; systemctl restart usbguard'
hub 1 'with keep'
check 'the log says once what that means' 'journalctl -o cat -u usbguard | grep -c "root hubs that switch on what comes to them: 1" | grep -x 1'
run 'cp -p /root/settings /etc/usbguard/usbguard-daemon.conf; systemctl restart usbguard'
hub 0 'with none again'

echo
echo "== A rule file in another folder, as usbguard-daemon.conf(5) says"
show 'mkdir /srv/usb && cp -p /etc/usbguard/rules.conf /srv/usb && sed -i "s|^RuleFile=.*|RuleFile=/srv/usb/rules.conf|" /etc/usbguard/usbguard-daemon.conf
systemctl restart usbguard; sleep 1; usbguard append-rule "allow 1050:0099"'
check 'without more an order is refused, since its save fails' 'usbguard append-rule "allow 1050:0099" | grep "^refused 10 store-fault" && ! grep 1050:0099 /srv/usb/rules.conf'
show 'mkdir -p /etc/systemd/system/usbguard.service.d && printf "[Service]\nReadWritePaths=/srv/usb\n" > /etc/systemd/system/usbguard.service.d/rules.conf
systemctl daemon-reload; systemctl restart usbguard; sleep 1; usbguard append-rule "allow 1050:0099"'
check 'with ReadWritePaths it is saved there' 'grep 1050:0099 /srv/usb/rules.conf'

echo
echo "== What a daemon that was taken over could still do"
cat >"$root/root/probe.conf" <<'END'
[Service]
Type=simple
Restart=no
ExecStart=
ExecStartPre=-/bin/sh -c 'for name in systemd/private dbus/system_bus_socket systemd/journal/socket systemd/notify; do \
        if [ -e /run/$$name ]; then echo "probe: sees $$name"; else echo "probe: no $$name"; fi; done'
ExecStartPre=-/bin/sh -c 'for file in /sys/bus/usb/devices/usb1/authorized /etc/usbguard/rules.conf /var/lib/usbguard/root-hubs /etc/hostname; do \
        if true >>$$file; then echo "probe: writes to $$file"; fi; done'
ExecStartPre=-/bin/sh -c '(echo "probe: makes a process")'
ExecStartPre=-/usr/bin/id
ExecStart=/bin/sh -c 'echo "probe: the end"'
END
probe='journalctl -o cat -t usbguard | grep "^probe: "'
show "mkdir -p /run/systemd/system/usbguard.service.d && cp /root/probe.conf /run/systemd/system/usbguard.service.d/
systemctl daemon-reload; systemctl restart usbguard; sleep 2; $probe; journalctl -o cat -t usbguard | tail -n 3"
for socket in systemd/private dbus/system_bus_socket systemd/journal/socket; do
    check "it doesn't see /run/$socket, which is there" "test -e /run/$socket && $probe | grep -x 'probe: no $socket'"
done
check 'it sees the socket that tells systemd of its start' "$probe | grep -x 'probe: sees systemd/notify'"
check 'it writes to the files of devices and to the rules alone' \
    "$probe | grep -c 'writes to /sys\|writes to /etc/usbguard' | grep -x 2 && ! $probe | grep 'writes to /var\|writes to /etc/hostname'"
check 'it makes no process' "! $probe | grep 'makes a process' && $probe | grep -x 'probe: the end'"
check 'it runs no other program' '! journalctl -o cat -t usbguard | grep uid=0'
run 'rm -r /run/systemd/system/usbguard.service.d; systemctl daemon-reload; systemctl restart usbguard'
guards
check 'the daemon has no way to the network, and its own users' \
    'pid=$(systemctl show --value -p MainPID usbguard); for space in net user mnt; do test "$(readlink /proc/$pid/ns/$space)" != "$(readlink /proc/1/ns/$space)" || exit 1; done'
check 'systemd-analyze rates it 1.0 or less, and its scripts' \
    'systemd-analyze security --threshold=10 usbguard && systemd-analyze security --threshold=10 usbguard-prepare'

echo
echo "== apt-get install over the original, which is disabled and stopped"
begin
show "$policy; systemctl disable --now usbguard usbguard-dbus 2>&1"
show 'DEBIAN_FRONTEND=noninteractive apt-get install -y /root/package.deb 2>&1 | grep -v ^Reading'
ours
check 'it is disabled still, and not started' '! systemctl is-enabled usbguard && ! systemctl is-active usbguard'

# unharmed: the original was purged, and what it deletes is there again
unharmed() {
    check 'the original is purged' '[ "$(dpkg-query -W -f "\${db:Status-Status}" usbguard 2>/dev/null || echo not-installed)" = not-installed ]'
    check 'rules and settings are as they were right before' \
        'cmp /etc/usbguard/rules.conf /root/before/rules.conf && cmp /etc/usbguard/usbguard-daemon.conf /root/before/usbguard-daemon.conf && [ "$(stat -c %a /etc/usbguard/rules.conf)" = 600 ]'
    check 'the service is enabled, and runs' 'systemctl is-enabled usbguard && systemctl is-active usbguard'
    check 'the package has said so' 'grep "^usbguard-rattle: the original USBGuard was purged. Put back: /etc/usbguard/rules.conf /etc/usbguard/usbguard-daemon.conf" /root/said'
    check 'nothing of our package is missing' "dpkg -V $name && systemctl cat usbguard | grep '^ExecStart=.*usbguard'"
}

echo
echo "== apt-get install --purge over the original"
begin
show "$policy; systemctl restart usbguard; sleep 1; cp -a /etc/usbguard /root/before"
show 'DEBIAN_FRONTEND=noninteractive apt-get install --purge -y /root/package.deb 2>&1 | grep -v ^Reading | tee /root/said'
run '/usr/bin/usbguard-script -o -r /root/before/rules.conf >/root/carried && cp -p /root/before/rules.conf /root/original-rules && cat /root/carried >/root/before/rules.conf'
unharmed
guards
show 'systemctl restart usbguard'
guards

echo
echo "== The original's rests are purged later, behind an order that has changed the rules and an upgrade"
begin
show "$policy; systemctl restart usbguard; sleep 1; dpkg -i /root/package.deb && dpkg -i /root/next.deb"
guards
show 'usbguard append-rule "allow 1050:0077"; rm -rf /root/before; cp -a /etc/usbguard /root/before'
show 'DEBIAN_FRONTEND=noninteractive apt-get purge -y "~c" 2>&1 | grep -v ^Reading | tee /root/said'
unharmed
check 'the rule of that order among them' 'grep "^allow id 1050:0077" /etc/usbguard/rules.conf'
show 'rm /etc/usbguard/rules.conf; dpkg-deb --build /root/other /root/other.deb; dpkg -i /root/other.deb'
check 'what an administrator removes himself stays away' 'test ! -e /etc/usbguard/rules.conf && test -e /etc/usbguard/rules.d/50-other.conf'

echo
echo "== Both are purged in one run"
begin
show "$policy; systemctl restart usbguard; sleep 1; dpkg -i /root/package.deb; dpkg --purge usbguard $name; ls -d /etc/usbguard /var/lib/usbguard; systemctl is-enabled usbguard"
check 'nothing comes back' 'test ! -e /etc/usbguard/rules.conf && test ! -e /etc/usbguard/usbguard-daemon.conf && test ! -e /var/lib/usbguard && ! systemctl is-enabled usbguard'

echo
echo "== Moving back, as docs/moving.md says"
# watched COMMAND: a command line, and each value that the key's authorized has while it runs and five seconds behind it
watched() {
    run 'systemd-run --unit=watching sh -c "while :; do cat /sys/bus/usb/devices/1-1/authorized; sleep 0.02; done >/root/values"'
    show "$1; sleep 5; systemctl is-active usbguard; usbguard list-devices"
    run 'systemctl stop watching'
    check 'the original runs' 'systemctl is-active usbguard && grep -a usbguard-daemon /proc/$(systemctl show --value -p MainPID usbguard)/cmdline && ! usbguard --version 2>&1 | grep "^usbguard 0"'
    check 'by its rule it allows the key, which is on at each moment' \
        'usbguard list-devices -a | grep " id 1050:0011 " && grep -qx 1 /root/values && ! grep -vx 1 /root/values && grep -x 1 /sys/bus/usb/devices/1-1/authorized'
}
back='DEBIAN_FRONTEND=noninteractive apt-get install -y -o Dpkg::Options::=--force-confnew usbguard 2>&1 | tee /root/said'
begin
show "$policy; systemctl restart usbguard; sleep 1; dpkg -i /root/package.deb"
run 'systemctl restart usbguard'
guards
watched "$back"
check 'the package has said what it did with the rules' 'grep "rules.conf has the hashes that the original USBGuard has for root hubs" /root/said && grep usbguard-script.-m /root/said'
check 'the rules are those of before the move' 'cmp /root/rules /etc/usbguard/rules.conf'
show 'dpkg -i /root/package.deb'
guards

echo
echo "== The same with the rules moved by hand"
show "usbguard-script -u | awk '{ print \$1, \$2 }' > /root/hashes
usbguard-script -m /root/hashes -r /etc/usbguard/rules.conf > /root/rules.original
cp /root/rules.original /etc/usbguard/rules.conf"
watched "$back"

echo
echo "== A start without a rule"
begin
show "$policy; systemctl disable --now usbguard usbguard-dbus; dpkg -i /root/package.deb; : > /etc/usbguard/rules.conf; echo 1 >/sys/bus/usb/devices/usb1/authorized_default"
show 'systemctl start usbguard; echo "status $?"; sleep 3; systemctl status --no-pager usbguard'
check 'it fails, with a status of its own' '! systemctl start usbguard && systemctl is-failed usbguard && systemctl show -p ExecMainStatus usbguard | grep -x ExecMainStatus=78'
check "it isn't tried again" 'sleep 3; systemctl is-failed usbguard && systemctl show -p NRestarts usbguard | grep -x NRestarts=0'
check 'systemctl status has the sentence with the two commands' \
    'systemctl status --no-pager usbguard >/root/status; grep "there is no rule in /etc/usbguard/rules.conf" /root/status && grep "  usbguard-script | usbguard generate-policy > /etc/usbguard/rules.conf" /root/status && grep "  systemctl start usbguard" /root/status'
hub 1 'it leaves the hubs:'
for line in ImplicitPolicyTarget=allow PresentDevicePolicy=keep PresentDevicePolicy=allow; do
    check "with $line it starts without a rule" \
        "sed -i '/^${line%=*}=/d' /etc/usbguard/usbguard-daemon.conf && echo $line >>/etc/usbguard/usbguard-daemon.conf && systemctl start usbguard && systemctl is-active usbguard; done=\$?; systemctl stop usbguard; cp -p /root/settings /etc/usbguard/usbguard-daemon.conf; exit \$done"
done
show 'usbguard-script | usbguard generate-policy > /etc/usbguard/rules.conf
systemctl start usbguard'
check 'by the two commands it starts, and is closed against a hangup' \
    'systemctl is-active usbguard && grep -qa "usbguard.daemon" /proc/$(systemctl show --value -p MainPID usbguard)/cmdline && systemctl kill -s HUP usbguard && sleep 2 && systemctl show -p NRestarts usbguard | grep -x NRestarts=0'

echo
echo "== An upgrade where the settings have a bad line by now"
show 'echo Frob=1 >> /etc/usbguard/usbguard-daemon.conf; dpkg -i /root/next.deb 2>&1 | tee /root/said'
check 'it says which, and is done all the same' 'grep "^usbguard-rattle: a restart of the service would fail" /root/said && grep "^usbguard-rattle: /etc/usbguard/usbguard-daemon.conf, line [0-9]*" /root/said && grep "Frob=1" /root/said && dpkg -s usbguard-rattle | grep "^Status: install ok installed"'

echo
echo "== The steps of docs/moving.md before the installation, with a disk of two storage interfaces that the original keeps out"
begin
sys=$root/root/sys
disk=$sys/devices/pci0000:00/0000:00:14.0/usb1/1-2
device "$disk" 1050:0012 Disk 7 \
    '\022\001\000\002\000\000\000\100\120\020\022\000\000\001\001\002\003\001\011\002\033\000\002\001\000\200\062\011\004\000\000\000\010\006\120\000\011\004\001\000\000\010\006\120\000'
mkdir "$disk/port"
echo hotplug >"$disk/port/connect_type"
ln -s ../../../devices/pci0000:00/0000:00:14.0/usb1/1-2 "$sys/bus/usb/devices/1-2"
show "$policy; sed -i '/ 1050:0012 /d' /etc/usbguard/rules.conf; echo 'allow with-interface equals { 08:06:50 }' >> /etc/usbguard/rules.conf; systemctl restart usbguard; sleep 1; usbguard list-devices"
# steps: the commands of steps 1 to 3 that stand in the page, with the package at its place
dpkg-deb --fsys-tarfile "$package" | tar -xO "./usr/share/doc/$name/docs/moving.md" |
    awk '/^## How to move$/ { inside = 1 } /^4\. / { inside = 0 } inside && /^       / { sub(/^       /, ""); print }' |
    sed 's|usbguard-rattle_\*\.deb|/root/package.deb|' >"$root/root/steps"
show 'cat /root/steps; cd /root && sh steps'
check 'they say that the rules are good, and which device is judged otherwise' \
    'cd /root && sh steps >said; grep -x "rules 3" said && grep -x "< 1-2 block" said && grep -x "> 1-2 allow" said && ! grep -e "^[<>] 1-1" -e ^bad said'
check 'the original runs on' 'systemctl is-active usbguard && grep -a usbguard-daemon /proc/$(systemctl show --value -p MainPID usbguard)/cmdline'

echo
echo "$failures failed"
[ "$failures" -eq 0 ]
