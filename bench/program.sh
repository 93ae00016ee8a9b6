# shellcheck shell=sh
# What the scripts here begin with: the built program, and a folder of their own that goes at their end.
root=$(cd "$(dirname "$0")/.." && pwd)
# shellcheck disable=SC2034
program=$root/crates/usbguard/out/usbguard
"$root/bin/build-usbguard"
folder=$(mktemp -d)
trap 'rm -rf "$folder"' EXIT
