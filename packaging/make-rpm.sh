#!/bin/sh
# Makes an rpm of what `make install` installs, by Debian's package rpm or a Fedora's rpm-build: out/NAME-VERSION-1.ARCHITECTURE.rpm.
# Used by `make rpm`: PROGRAM=path packaging/make-rpm.sh NAME VERSION
set -eu
export LC_ALL=C
umask 022
cd "$(dirname "$0")/.."
name=$1
version=$2
top=$PWD/out/rpm
root=$top/root

rm -rf "$top"
mkdir -p "$root"
make --no-print-directory install PROGRAM="$PROGRAM" PACKAGE="$name" DESTDIR="$root" zshdir=/usr/share/zsh/site-functions >/dev/null
strip --strip-unneeded --remove-section=.comment --remove-section=.note "$root/usr/bin/usbguard"
gzip -9 -n "$root"/usr/share/man/man5/*.5 "$root"/usr/share/man/man8/*.8 "$root/usr/share/man/man1/usbguard.1"
for page in "$root"/usr/share/man/man1/usbguard-*.1; do
    ln -sf usbguard.1.gz "$page.gz"
    rm "$page"
done
install -m 644 packaging/copyright "$root/usr/share/doc/$name/copyright"

# The files, and the folders that are the package's own. Settings and rules that were changed stay as they are.
{
    (cd "$root" && find usr ! -type d) | sed -e 's|^|/|' -e 's|^/usr/share/doc/|%doc &|'
    find "$root/usr/share/doc/$name" -type d | sed "s|^$root|%dir |"
    echo '%dir /etc/usbguard'
    echo '%dir %attr(700, root, root) /etc/usbguard/IPCAccessControl.d'
    echo '%dir %attr(700, root, root) /etc/usbguard/rules.d'
    echo '%config(noreplace) %attr(600, root, root) /etc/usbguard/usbguard-daemon.conf'
    echo '%config(noreplace) %attr(600, root, root) /etc/usbguard/rules.conf'
} >"$top/files"

SOURCE_DATE_EPOCH=$(git log -1 --format=%ct) rpmbuild -bb --quiet --define "_topdir $top" --define "name $name" --define "version $version" \
    --define "staged $root" --define "listed $top/files" --define 'use_source_date_epoch_as_buildtime 1' packaging/usbguard-rattle.spec
mv "$top"/RPMS/*/"$name"-*.rpm out/
for file in out/"$name-$version"-1.*.rpm; do
    echo "rpmbuild: built package '$name' in '$file'."
done
