# Completion of usbguard and its scripts for bash.

# The files whose names begin like the word; the folders alone with -d behind it.
_usbguard_files() {
    compopt -o filenames 2>/dev/null
    mapfile -t COMPREPLY < <(compgen "${2:--f}" -- "$1")
}

# The words that begin like the first one.
_usbguard_words() {
    mapfile -t COMPREPLY < <(compgen -W "${*:2}" -- "$1")
}

# Lists with commas between, whose last word begins like that of the first list: the words that it has not yet.
_usbguard_lists() {
    local written='' last=$1 word
    [[ $1 != *,* ]] || written=${1%,*}, last=${1##*,}
    COMPREPLY=()
    for word in "${@:2}"; do
        [[ ,$written != *,$word,* && $word == "$last"* ]] && COMPREPLY+=("$written$word")
    done
}

# The daemon's sockets, or other files where none begins like the word.
_usbguard_sockets() {
    local socket
    for socket in /run/usbguard/*.socket; do
        [[ -e $socket && $socket == "$1"* ]] && COMPREPLY+=("$socket")
    done
    ((${#COMPREPLY[@]})) || _usbguard_files "$1"
}

# The numbers of devices or of rules, as that command of the daemon lists them at its socket.
_usbguard_numbers() {
    local place socket=()
    for ((place = 2; place < COMP_CWORD; place++)); do
        [[ ${COMP_WORDS[place]} == --socket ]] || continue
        [[ ${COMP_WORDS[place + 1]} != '=' ]] || ((place++))
        socket=(--socket "${COMP_WORDS[place + 1]}")
    done
    _usbguard_words "$1" "$(usbguard "$2" "${socket[@]}" 2>/dev/null </dev/null | sed -n 's/^\([0-9]*\): .*/\1/p')"
}

# Whether the word names a file behind < or >.
_usbguard_redirects() {
    [[ $1 == '<' || $1 == '>' || $1 == '>>' ]]
}

# The privileges of an access file's section, behind its option.
_usbguard_privileges() {
    case $2 in
    --devices) _usbguard_lists "$1" modify list listen ALL ;;
    --policy) _usbguard_lists "$1" modify list ALL ;;
    --exceptions) _usbguard_lists "$1" listen ALL ;;
    --parameters) _usbguard_lists "$1" modify list listen ALL ;;
    *) return 1 ;;
    esac
}

# A setting's name behind get-parameter or set-parameter, and what it can be.
_usbguard_parameter() {
    case $COMP_CWORD,$2 in
    2,*) _usbguard_words "$1" ImplicitPolicyTarget InsertedDevicePolicy ;;
    3,ImplicitPolicyTarget) [[ $3 != set-parameter ]] || _usbguard_words "$1" allow block reject ;;
    3,InsertedDevicePolicy) [[ $3 != set-parameter ]] || _usbguard_words "$1" apply-policy block reject ;;
    esac
}

# The options of a command, behind its word.
_usbguard_options() {
    case $3 in
    daemon)
        case $COMP_CWORD in
        2) _usbguard_words "$1" --conf ;;
        3) [[ $2 != --conf ]] || _usbguard_files "$1" ;;
        esac
        ;;
    add-user)
        _usbguard_privileges "$1" "$2" || [[ $1 != -* ]] ||
            _usbguard_words "$1" --devices --exceptions --parameters --policy
        ;;
    allow-device | block-device | reject-device)
        if [[ $1 == -* ]]; then
            _usbguard_words "$1" --permanent --socket -p
        else
            _usbguard_numbers "$1" list-devices
        fi
        ;;
    append-rule)
        if [[ $2 == -a || $2 == --after ]]; then
            _usbguard_numbers "$1" list-rules
        elif [[ $1 == -* ]]; then
            _usbguard_words "$1" --after --socket --temporary -a -t
        fi
        ;;
    remove-rule)
        if [[ $1 == -* ]]; then
            _usbguard_words "$1" --socket
        else
            _usbguard_numbers "$1" list-rules
        fi
        ;;
    lint-rules) [[ $1 != -* ]] || _usbguard_words "$1" --prune ;;
    replay) [[ $1 != -* ]] || _usbguard_words "$1" --summary ;;
    watch) [[ $1 != -* ]] || _usbguard_words "$1" --most --once --socket --wait -n -o -w ;;
    get-parameter | set-parameter)
        if [[ $1 == -* && $3 == set-parameter ]]; then
            _usbguard_words "$1" --socket --verbose -v
        elif [[ $1 == -* ]]; then
            _usbguard_words "$1" --socket
        else
            _usbguard_parameter "$1" "$2" "$3"
        fi
        ;;
    list-devices) [[ $1 != -* ]] || _usbguard_words "$1" --allowed --blocked --socket -a -b ;;
    list-rules) [[ $1 != -* ]] || _usbguard_words "$1" --label --show-devices --socket -d -l ;;
    esac
}

_usbguard() {
    local word=${COMP_WORDS[COMP_CWORD]} before=${COMP_WORDS[COMP_CWORD - 1]}
    COMPREPLY=()
    # --socket=PATH and --devices=LIST come as three words
    if [[ $word == '=' ]]; then
        word=
    elif [[ $before == '=' ]]; then
        before=${COMP_WORDS[COMP_CWORD - 2]}
    fi
    if _usbguard_redirects "$before"; then
        _usbguard_files "$word"
    elif ((COMP_CWORD == 1)); then
        if [[ $word == -* ]]; then
            _usbguard_words "$word" --help --version
        else
            _usbguard_words "$word" add-user allow-device append-rule block-device check-rules daemon generate-policy \
                get-parameter lint-rules list-devices list-rules make-script read-descriptor reject-device remove-rule replay set-parameter watch
        fi
    elif [[ $before == --socket ]]; then
        _usbguard_sockets "$word"
    else
        _usbguard_options "$word" "$before" "${COMP_WORDS[1]}"
    fi
}

_usbguard_script() {
    local word=${COMP_WORDS[COMP_CWORD]} before=${COMP_WORDS[COMP_CWORD - 1]}
    COMPREPLY=()
    if _usbguard_redirects "$before"; then
        _usbguard_files "$word"
        return
    fi
    case $before in
    -c | -m | -r) _usbguard_files "$word" ;;
    -d) _usbguard_files "$word" -d ;;
    -w) _usbguard_words "$word" hash parent-hash ;;
    *) _usbguard_words "$word" --help -c -d -k -m -o -r -u -w ;;
    esac
}

_usbguard_check() {
    local word=${COMP_WORDS[COMP_CWORD]} before=${COMP_WORDS[COMP_CWORD - 1]}
    case $before in
    -c) _usbguard_files "$word" ;;
    -d) _usbguard_files "$word" -d ;;
    *) _usbguard_words "$word" --help -c -d ;;
    esac
}

_usbguard_access() {
    local word=${COMP_WORDS[COMP_CWORD]} before=${COMP_WORDS[COMP_CWORD - 1]}
    COMPREPLY=()
    case $before in
    -c) _usbguard_files "$word" ;;
    add | set | remove | show) mapfile -t COMPREPLY < <(compgen -u -- "$word") ;;
    usbguard-access) _usbguard_words "$word" --help -c add set remove show ;;
    *)
        _usbguard_privileges "$word" "$before" ||
            _usbguard_words "$word" --devices --exceptions --parameters --policy
        ;;
    esac
}

_usbguard_policy() {
    local word=${COMP_WORDS[COMP_CWORD]} before=${COMP_WORDS[COMP_CWORD - 1]} device
    # --target=TARGET comes as three words
    if [[ $word == '=' ]]; then
        word=
    elif [[ $before == '=' ]]; then
        before=${COMP_WORDS[COMP_CWORD - 2]}
    fi
    COMPREPLY=()
    case $before in
    -d | --devpath)
        for device in /sys/bus/usb/devices/usb* /sys/bus/usb/devices/[0-9]*-[0-9]*; do
            [[ -e $device && $device != *:* && ${device##*/} == "$word"* ]] && COMPREPLY+=("${device##*/}")
        done
        ;;
    -f) _usbguard_files "$word" -d ;;
    -t | --target) _usbguard_words "$word" allow block reject ;;
    *) _usbguard_words "$word" --devpath --help --no-ports-sn --target --with-ports -P -d -f -p -t ;;
    esac
}

_usbguard_rule_parser() {
    local word=${COMP_WORDS[COMP_CWORD]} before=${COMP_WORDS[COMP_CWORD - 1]}
    COMPREPLY=()
    case $before in
    -f | --file) _usbguard_files "$word" ;;
    *) [[ $word != -* ]] || _usbguard_words "$word" --file --help -f ;;
    esac
}

_usbguard_status() {
    local word=${COMP_WORDS[COMP_CWORD]} before=${COMP_WORDS[COMP_CWORD - 1]}
    COMPREPLY=()
    case $before in
    -d) _usbguard_files "$word" -d ;;
    -w) ;;
    *) _usbguard_words "$word" --help --quiet -d -q -w ;;
    esac
}

_usbguard_daemon() {
    local word=${COMP_WORDS[COMP_CWORD]} before=${COMP_WORDS[COMP_CWORD - 1]}
    COMPREPLY=()
    case $before in
    -c | -l | -p) _usbguard_files "$word" ;;
    *) _usbguard_words "$word" -K -c -d -h -k -l -p ;;
    esac
}

complete -F _usbguard usbguard
complete -F _usbguard_script usbguard-script
complete -F _usbguard_check usbguard-check
complete -F _usbguard_access usbguard-access
complete -F _usbguard_policy usbguard-policy
complete -F _usbguard_rule_parser usbguard-rule-parser
complete -F _usbguard_status usbguard-status
complete -F _usbguard_daemon usbguard-daemon
