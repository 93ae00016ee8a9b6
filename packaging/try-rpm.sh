#!/bin/sh
# Installs the rpm into a folder by `rpm --root`, and shows what its files are and what its scripts do. As root, with debootstrap, rpm,
# rpmbuild and the network:
#
#   packaging/try-rpm.sh PACKAGE.rpm [FOLDER]
#
# FOLDER, which must not exist, is made and removed; without it that is a new one under /tmp. The root in it is a Debian, where a script
# that notes its words takes the place of systemctl: what rpm unpacks and runs is seen here, and no Fedora. BASE is a root that debootstrap
# made, which is then copied.
set -eu
export LC_ALL=C
usage='usage: packaging/try-rpm.sh PACKAGE.rpm [FOLDER]'
package=$(realpath -e "${1:?$usage}")
work=${2:-$(mktemp -d /tmp/usbguard-rpm-XXXXXX)/work}
[ ! -e "$work" ] || { echo "try-rpm: $work is there already" >&2; exit 1; }
mkdir -p "$work"
root=$work/root
trap 'umount "$root/proc" 2>/dev/null || :; rm -rf --one-file-system "$work"; rmdir "${work%/work}" 2>/dev/null || :' EXIT
failures=0

# show COMMAND: a command line, and its output
show() {
    printf '\n# %s\n' "$1"
    sh -c "$1" 2>&1 || printf '(status %d)\n' $?
}

# check WHAT COMMAND: whether the command succeeds
check() {
    if sh -c "$2" >/dev/null 2>&1; then
        echo "ok: $1"
    else
        echo "FAILED: $1"
        failures=$((failures + 1))
    fi
}

# build NAME VERSION: an rpm of a folder NAME in the working folder, by a spec there
build() {
    rpmbuild -bb --quiet --define "_topdir $work/build" "$work/$1.spec"
    cp "$work"/build/RPMS/*/"$1-$2"-*.rpm "$work/$1-$2.rpm"
}

echo "== A root, and a systemctl that notes its words"
if [ -n "${BASE:-}" ]; then
    cp -a "$BASE" "$root"
else
    debootstrap --variant=minbase "${SUITE:-bookworm}" "$root" ${MIRROR:+"$MIRROR"} >"$work/log" 2>&1 || { cat "$work/log"; exit 1; }
fi
mkdir -p "$root/run/systemd/system"
cat >"$root/usr/bin/systemctl" <<'END_OF_STUB'
#!/bin/sh
echo "$*" >>/root/called
case "$*" in
*is-enabled*) [ -e /root/enabled ] ;;
*is-active*) [ -e /root/active ] ;;
*disable\ --now*) rm -f /root/enabled /root/active ;;
"enable usbguard.service") : >/root/enabled ;;
"start usbguard.service") : >/root/active ;;
esac
END_OF_STUB
chmod 755 "$root/usr/bin/systemctl"
mount -t proc proc "$root/proc"
rpm="rpm --root $root --nodeps"
name=$(rpm -qp --qf '%{NAME}' "$package")
version=$(rpm -qp --qf '%{VERSION}' "$package")

echo
echo "== What it has"
show "rpm -qp --qf '[%{FILEMODES:perms} %{FILEUSERNAME} %{FILEFLAGS:fflags} %{FILENAMES}\n]' $package | grep -v /share/doc"
check 'settings and rules are kept where they were changed' \
    "rpm -qp --qf '[%{FILEFLAGS:fflags} %{FILEMODES:perms} %{FILENAMES}\n]' $package | grep '^cn -rw------- /etc/usbguard' | cut -d ' ' -f 3 | paste -sd ' ' | grep -x '/etc/usbguard/rules.conf /etc/usbguard/usbguard-daemon.conf'"
check 'it conflicts with the original' "rpm -qp --conflicts $package | grep -x usbguard"
check 'its scripts are sound' "rpm -qp --scripts --triggers $package | grep -v scriptlet | sh -n"

echo
echo "== It is installed"
show "$rpm -i $package; cat $root/root/called"
check 'the program runs, and tells the version' "chroot $root usbguard --version | grep -x \"usbguard \$(echo '$version' | sed 's/[~+].*//')\""
check 'rpm finds all as it was' "rpm --root $root -V --nodeps $name"
check 'nothing is enabled or started' "! grep -w -e enable -e start $root/root/called"
check 'the settings are accepted' "chroot $root usbguard-check -d /nonexistent | grep 'there is no rule' || chroot $root usbguard-check"

echo
echo "== An upgrade"
echo 'allow id 1050:0011' >"$root/etc/usbguard/rules.conf"
echo '# mine' >>"$root/etc/usbguard/usbguard-daemon.conf"
: >"$root/root/called"
rpm2archive "$package"
mkdir "$work/next"
tar -xzf "$package.tgz" -C "$work/next"
rm "$package.tgz"
# shellcheck disable=SC2016 # rpm's macros
{
    echo '%define debug_package %{nil}'
    printf '%%define __os_install_post %%{nil}\nName: %s\nVersion: 9\nRelease: 1\nSummary: later\nLicense: GPL\n%%description\nlater\n' "$name"
    printf '%%install\ncp -a %s/. %%{buildroot}/\n%%files\n/usr\n%%config(noreplace) /etc/usbguard/*.conf\n' "$work/next"
} >"$work/$name.spec"
echo '# another default' >>"$work/next/etc/usbguard/usbguard-daemon.conf"
build "$name" 9
show "$rpm -U $work/$name-9.rpm; ls $root/etc/usbguard; cat $root/root/called"
check 'rules and settings that were changed stay' "grep -qx 'allow id 1050:0011' $root/etc/usbguard/rules.conf && grep -qx '# mine' $root/etc/usbguard/usbguard-daemon.conf && test -e $root/etc/usbguard/usbguard-daemon.conf.rpmnew"
check 'a daemon that runs is restarted' "grep -x 'try-restart usbguard.service' $root/root/called"
rm "$root/etc/usbguard/usbguard-daemon.conf.rpmnew"
show "$rpm -U --oldpackage $package"

echo
echo "== It goes"
mkdir -p "$root/sys/bus/usb/devices/usb1"
echo 0 >"$root/sys/bus/usb/devices/usb1/authorized_default"
: >"$root/root/called"
show "$rpm -e $name; cat $root/root/called; ls $root/etc/usbguard"
check 'the service is stopped before' "grep -x -e '--no-reload disable --now usbguard.service' $root/root/called"
check 'root hubs are open' "grep -x 1 $root/sys/bus/usb/devices/usb1/authorized_default"
check 'rules that were changed are kept beside' "grep -x 'allow id 1050:0011' $root/etc/usbguard/rules.conf.rpmsave"
check 'nothing else is left' "test ! -e $root/usr/bin/usbguard && test ! -e $root/var/lib/usbguard"
rm -r "$root/etc/usbguard"

echo
echo "== The original goes, with a service that was enabled and ran: a package with its files and its script"
mkdir -p "$work/original/etc/usbguard" "$work/original/usr/lib/systemd/system"
echo 'allow id 1050:0012' >"$work/original/etc/usbguard/rules.conf"
echo RuleFile=/etc/usbguard/rules.conf >"$work/original/etc/usbguard/usbguard-daemon.conf"
echo '[Service]' >"$work/original/usr/lib/systemd/system/usbguard.service"
{
    printf '%%define debug_package %%{nil}\nName: usbguard\nVersion: 1.1.2\nRelease: 1\nSummary: original\nLicense: GPL\n%%description\noriginal\n'
    printf '%%install\ncp -a %s/. %%{buildroot}/\n%%files\n/usr/lib/systemd/system/usbguard.service\n%%config(noreplace) /etc/usbguard/*.conf\n' "$work/original"
    printf '%%preun\n[ $1 -ne 0 ] || systemctl --no-reload disable --now usbguard.service\n'
} >"$work/usbguard.spec"
build usbguard 1.1.2
show "$rpm -i $work/usbguard-1.1.2.rpm"
echo 'allow id 1050:0013' >>"$root/etc/usbguard/rules.conf"
cp "$root/etc/usbguard/rules.conf" "$work/rules"
touch "$root/root/enabled" "$root/root/active"
: >"$root/root/called"
show "$rpm -i --replacefiles $package; $rpm -e usbguard; cat $root/root/called"
check 'the rules are those of before' "cmp $work/rules $root/etc/usbguard/rules.conf"
check 'the service is enabled again, and runs' "test -e $root/root/enabled && test -e $root/root/active"
check 'the unit is ours' "grep -q '^ExecStart=.*/usr/bin/usbguard daemon' $root/usr/lib/systemd/system/usbguard.service"

echo
echo "$failures failed"
[ "$failures" -eq 0 ]
