#!/bin/sh
# Tells each crate of crates.txt that docs/architecture.md leaves out of its table or its picture, each command of usbguard(1) that it
# leaves out of its map, and each crate that it names and that isn't there. Its status is 1 where there is one.
set -eu
cd "$(dirname "$0")/.."
page=docs/architecture.md
lost=0

# part HEADING: the part of the page under that heading
part() {
    awk -v heading="## $1" '/^## / { inside = ($0 == heading) } inside' "$page"
}

# want WORD HEADING: tells it where that part lacks the word
want() {
    part "$2" | grep -qw -- "$1" || { echo "$1 is missing under \"$2\""; lost=1; }
}

crates=$(sed -e 's/#.*//' -e 's/[ :].*//' crates.txt)
for crate in $crates; do
    want "$crate" 'The crates'
    want "$crate" 'All crates in one picture'
done
named=$(grep -o '\<ug_[a-z_]*' "$page" | sort -u)
for crate in $named; do
    echo "$crates" | grep -qx "$crate" || { echo "$crate is no crate"; lost=1; }
done
for command in $(awk '/^\.Sh/ { inside = /SYNOPSIS/ } inside && /^\.Cm/' man/usbguard.1 | tr -d '|' | sed 's/^\.Cm//') usbguard-script usbguard-check usbguard-access \
    usbguard-policy usbguard-rule-parser usbguard-status usbguard-daemon; do
    want "\`$command\`" 'Which crates answer a command'
done
# docs/headline.md: what a reader has to believe stays short.
python3 checks/reach.py --most 1000,150 crates/ug_headline/specs/Headline.antt IsToldAndWarranted >/dev/null ||
    { echo "the headline rests on more than 1,000 lines or 150 definitions"; lost=1; }
exit "$lost"
