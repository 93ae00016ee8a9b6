# shellcheck shell=sh
# Read by bin/usbguard and bin/build-usbguard: which sources the program stands on, whether the program that is there is proved of just
# these, and how the time goes. root is the top of the clone.
: "${root:?}"

program=$root/crates/usbguard/out/usbguard
# what the program was proved of
record=$root/out/proved

# crate_lines TOP: the lines of crates.txt that usbguard stands on, and its own
crate_lines() {
    awk '
        function take(name, below, count, at) {
            if (!(name in line) || name in taken) return
            taken[name] = 1
            count = split(uses[name], below, " ")
            for (at = 1; at <= count; at++) take(below[at])
            print line[name]
        }
        { text = $0; sub(/#.*/, "", text); split(text, half, ":"); split(half[1], words, " ") }
        words[1] != "" { line[words[1]] = $0; uses[words[1]] = half[2] }
        END { take("usbguard") }' "$1/crates.txt"
}

# crate_names TOP: the names of these crates
crate_names() {
    crate_lines "$1" | sed 's/[ :].*//'
}

# sources_sum TOP PART..: a checksum of these folders of these crates, of their lines and of HANDLES
sources_sum() (
    cd "$1" || exit
    shift
    parts=$*
    set --
    for name in $(crate_names .); do
        for part in $parts; do
            [ ! -d "crates/$name/$part" ] || set -- "$@" "crates/$name/$part"
        done
    done
    {
        crate_lines .
        cat HANDLES
        find "$@" -type f -print0 | LC_ALL=C sort -z | xargs -0 sha256sum
    } | sha256sum | cut -c 1-32
)

# record_of SUM: the record of the program that is there, proved of the sources with that sum
record_of() {
    printf 'sources %s\nprogram %s\n' "$1" "$(sha256sum <"$program" | cut -c 1-32)"
}

# is_proved: whether the program that is there is proved of these sources
is_proved() {
    [ -x "$program" ] && [ -r "$record" ] &&
        [ "$(head -n 2 "$record")" = "$(record_of "$(sources_sum "$root" src specs proofs)")" ]
}

started=$(date +%s)
told=0

# so_far: the time since the start
so_far() {
    passed=$(($(date +%s) - started))
    if [ "$passed" -lt 60 ]; then
        echo "$passed s"
    else
        echo "$((passed / 60)) min $((passed % 60)) s"
    fi
}

is_terminal() {
    [ -t 2 ] && [ "${TERM:-dumb}" != dumb ]
}

# progress TEXT: on a terminal one line that changes, and else a line of its own every eight seconds
progress() {
    if is_terminal; then
        printf '\r\033[K%.78s' "usbguard: $1" >&2
    elif [ $(($(date +%s) - told)) -ge 8 ]; then
        told=$(date +%s)
        printf 'usbguard: %s\n' "$1" >&2
    fi
}

# say TEXT: a line that stays
say() {
    ! is_terminal || printf '\r\033[K' >&2
    printf 'usbguard: %s\n' "$1" >&2
}

# stop STATUS TEXT
stop() {
    say "$2"
    exit "$1"
}

# want_toolchain: stops where rt isn't there
want_toolchain() {
    command -v rt >/dev/null || stop "$1" "rt, which builds the program, is not in PATH: README.md names the toolchain that has it"
}

# lock FOLDER: waits until no other call builds what is kept there
lock() {
    command -v flock >/dev/null || return 0
    exec 9<"$1"
    until flock -n 9; do
        progress "another call is building it: waiting, $(so_far) so far"
        sleep 1
    done
}

# clean: ends rt, and removes the working folder
clean() {
    if [ -n "$pid" ]; then
        kill "$pid" 2>/dev/null || :
        wait "$pid" 2>/dev/null || :
        pid=
    fi
    # (what rt had started may still be writing)
    [ -z "$work" ] || rm -rf "$work" 2>/dev/null || { sleep 1 && rm -rf "$work"; }
    work=
}

# is_running: whether rt still runs; else status is its status
is_running() {
    if kill -0 "$pid" 2>/dev/null; then
        return 0
    fi
    status=0
    wait "$pid" 2>/dev/null || status=$?
    pid=
    return 1
}

# the working folder, and the id and the last status of rt, as these scripts run it
work=
pid=
# shellcheck disable=SC2034
status=0

# end_by_signals: a signal ends the script, which then cleans up
end_by_signals() {
    trap clean EXIT
    trap 'exit 129' HUP
    trap 'say "interrupted"; exit 130' INT
    trap 'exit 143' TERM
}

end_by_signals
