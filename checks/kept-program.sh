#!/bin/sh
# Tries which program bin/usbguard takes from where it keeps one: only what the caller alone can have put there. As root, since the
# programs of another user are tried too; without a toolchain, so that nothing is built.
#
#   checks/kept-program.sh
set -eu
root=$(CDPATH='' cd "$(dirname "$0")/.." && pwd -P)
work=$(mktemp -d)
trap 'rm -rf "$work"' EXIT
mkdir "$work/clone"
(cd "$root" && cp -R bin crates crates.txt HANDLES "$work/clone")
rm -rf "$work/clone/crates/usbguard/out"
sum=$(root=$work/clone sh -c '. "$root/bin/sources.sh"; sources_sum "$root" src')
failures=0

# kept FOLDER: a program there, which says that it was taken
kept() {
    rm -rf "$1"
    mkdir -p "$1"
    chmod 755 "$1"
    printf '#!/bin/sh\necho taken\n' >"$1/usbguard-$sum"
    chmod 755 "$1/usbguard-$sum"
}

# takes WANTED WHAT: whether it is taken (yes) or not (no)
takes() {
    seen=no
    [ "$(PATH=/usr/bin:/bin XDG_CACHE_HOME=$work/cache "$work/clone/bin/usbguard" replay </dev/null 2>/dev/null)" != taken ] || seen=yes
    if [ $seen = "$1" ]; then
        echo "ok: $2: $1"
    else
        echo "FAILED: $2: $seen"
        failures=$((failures + 1))
    fi
}

for place in "$work/clone/out/unproved" "$work/cache/usbguard"; do
    echo "== ${place#"$work/"}"
    kept "$place"
    takes yes "the caller's, which nobody else can write"
    chown nobody "$place"
    takes no "a folder of another user's"
    kept "$place"
    chmod 757 "$place"
    takes no 'a folder that others may write'
    kept "$place"
    chmod 775 "$place"
    takes no 'a folder that its group may write'
    kept "$place"
    chown nobody "$place/usbguard-$sum"
    takes no "another user's program"
    kept "$place"
    chmod 775 "$place/usbguard-$sum"
    takes no 'a program that its group may write'
    kept "$place"
    mv "$place/usbguard-$sum" "$work/elsewhere"
    ln -s "$work/elsewhere" "$place/usbguard-$sum"
    takes no 'a link to a program'
    kept "$work/folder"
    rm -rf "$place"
    ln -s "$work/folder" "$place"
    takes no 'a link to a folder'
    rm -rf "$place" "$work/folder"
done

echo "$failures failed"
[ "$failures" -eq 0 ]
