#!/bin/sh
# Makes a Debian package of what `make install` installs: out/NAME_VERSION_ARCHITECTURE.deb.
# Used by `make deb`: PROGRAM=path packaging/make-deb.sh NAME VERSION
set -eu
export LC_ALL=C
umask 022
cd "$(dirname "$0")/.."
name=$1
version=$2
architecture=$(dpkg --print-architecture)
root=out/deb/root
file=out/${name}_${version}_$architecture.deb

rm -rf out/deb
mkdir -p "$root/DEBIAN"
make --no-print-directory install PROGRAM="$PROGRAM" PACKAGE="$name" DESTDIR="$root" >/dev/null
strip --strip-unneeded --remove-section=.comment --remove-section=.note "$root/usr/bin/usbguard"
gzip -9 -n "$root"/usr/share/man/man5/*.5 "$root"/usr/share/man/man8/*.8 "$root/usr/share/man/man1/usbguard.1"
for page in "$root"/usr/share/man/man1/usbguard-*.1; do
    ln -sf usbguard.1.gz "$page.gz"
    rm "$page"
done
# Debian has the licence's text once for all packages, and the copyright file names it.
ln -sf ../../common-licenses/GPL-2 "$root/usr/share/doc/$name/LICENSE"
install -m 644 packaging/copyright "$root/usr/share/doc/$name/copyright"
git log -1 --format="$name ($version) unstable; urgency=medium%n%n  * Commit %h: see CHANGELOG.md.%n%n -- %an <%ae>  %cD" |
    gzip -9 -n >"$root/usr/share/doc/$name/changelog.gz"
install -d -m 755 "$root/usr/share/lintian/overrides"
install -m 644 packaging/lintian-overrides "$root/usr/share/lintian/overrides/$name"
# What postinst puts where it is missing: dpkg doesn't know settings and rules.
install -d -m 755 "$root/usr/share/$name"
install -m 755 packaging/usbguard-keep "$root/usr/libexec/usbguard-keep"
install -m 644 packaging/usbguard-daemon.conf packaging/usbguard.service "$root/usr/share/$name"
rm -r "${root:?}/etc"
install -D -m 644 packaging/dpkg.cfg "$root/etc/dpkg/dpkg.cfg.d/$name"
echo "/etc/dpkg/dpkg.cfg.d/$name" >"$root/DEBIAN/conffiles"

# The packages of the libraries that ldd names, which is libc6 alone. The program needs the version of glibc whose symbols it cites.
packages=
for library in $(ldd "$PROGRAM" | grep -o '/[^ ]*'); do
    owner=$(dpkg -S "$library" 2>/dev/null || dpkg -S "$(realpath "$library")")
    packages="$packages ${owner%%:*}"
done
glibc=$(grep -ao 'GLIBC_2\.[0-9.]*' "$PROGRAM" | cut -d _ -f 2 | sort -V | tail -n 1)
# shellcheck disable=SC2086 # a word each
depends=$(printf '%s\n' $packages | sort -u | sed "s/^libc6\$/libc6 (>= $glibc)/" | paste -sd , | sed 's/,/, /g')

cat >"$root/DEBIAN/control" <<END
Package: $name
Version: $version
Architecture: $architecture
Maintainer: $(git log -1 --format='%an <%ae>')
Installed-Size: $(du -ks "$root" | cut -f 1)
Depends: $depends
Conflicts: usbguard
Replaces: usbguard
Section: utils
Priority: optional
Description: USB device authorisation by rules
 The daemon judges USB devices by the rules of usbguard-rules.conf(5), and
 notes each verdict and each write in its journal. A policy can be rehearsed
 before the daemon is started. The service is neither enabled nor started by
 this package, unless it was before.
END
for script in preinst postinst prerm postrm; do
    install -m 755 "packaging/$script" "$root/DEBIAN/$script"
done
install -m 644 packaging/triggers "$root/DEBIAN/triggers"
(cd "$root" && find usr -type f -exec md5sum {} +) >"$root/DEBIAN/md5sums"

SOURCE_DATE_EPOCH=$(git log -1 --format=%ct) dpkg-deb --root-owner-group --build "$root" "$file"
