#compdef usbguard usbguard-script usbguard-check usbguard-access usbguard-policy usbguard-rule-parser usbguard-status usbguard-daemon
# Completion of usbguard and its scripts for zsh.

_usbguard_commands() {
    local -a commands=(
        'add-user:add privileges to an access text'
        'allow-device:allow a device'
        'append-rule:add a rule'
        'block-device:block a device'
        'check-rules:count the rules of a text, or report its first bad line'
        'daemon:judge the devices of this machine'
        'generate-policy:write rules that allow the devices of a script'
        'get-parameter:print what a setting is'
        'lint-rules:tell which rules of a text can never decide, or take them out'
        'list-devices:print devices'
        'list-rules:print all rules'
        "read-descriptor:list what a device's file descriptors says"
        'reject-device:reject a device'
        'remove-rule:remove a rule'
        'make-script:write a script of random events'
        'replay:run a script and write its journal'
        'set-parameter:change a setting until the daemon ends'
        'watch:print the notices that the daemon gives'
    )
    _describe command commands
}

# The daemon's sockets, or other files where none begins like the word.
_usbguard_socket() {
    local -a sockets=(/run/usbguard/*.socket(N))
    compadd -- $sockets || _files
}

# The privileges of an access file's section, with commas between.
_usbguard_privileges() {
    case $1 in
        --devices|--parameters) _values -s , privilege modify list listen ALL ;;
        --policy) _values -s , privilege modify list ALL ;;
        --exceptions) _values -s , privilege listen ALL ;;
    esac
}

# A setting's name behind get-parameter or set-parameter, and what it can be.
_usbguard_parameter() {
    case $CURRENT,$words[CURRENT-1] in
        3,*) compadd -- ImplicitPolicyTarget InsertedDevicePolicy ;;
        4,ImplicitPolicyTarget) [[ $words[2] != set-parameter ]] || compadd -- allow block reject ;;
        4,InsertedDevicePolicy) [[ $words[2] != set-parameter ]] || compadd -- apply-policy block reject ;;
    esac
}

# The numbers of devices or of rules, as that command of the daemon lists them at its socket.
_usbguard_numbers() {
    local -a numbers socket
    local place=${words[(I)--socket*]}
    case ${words[place]-} in
        --socket=*) socket=(${words[place]}) ;;
        --socket) socket=(--socket ${words[place + 1]}) ;;
    esac
    numbers=(${(f)"$(usbguard $1 $socket 2>/dev/null </dev/null | sed -n 's/^\([0-9]*\): /\1:/p')"})
    _describe number numbers
}

# The names of the devices that are plugged in.
_usbguard_devices() {
    local -a devices=(/sys/bus/usb/devices/(usb[0-9]*|[0-9]*-[0-9]*)(N:t))
    compadd -- ${devices:#*:*}
}

_usbguard_options() {
    case $words[2] in
        add-user) compadd -- --devices --exceptions --parameters --policy ;;
        allow-device|block-device|reject-device) compadd -- --permanent --socket -p ;;
        append-rule) compadd -- --after --socket --temporary -a -t ;;
        lint-rules) compadd -- --prune ;;
        replay) compadd -- --summary ;;
        watch) compadd -- --most --once --socket --wait -n -o -w ;;
        list-rules) compadd -- --label --show-devices --socket -d -l ;;
        set-parameter) compadd -- --socket --verbose -v ;;
        list-devices) compadd -- --allowed --blocked --socket -a -b ;;
        get-parameter|remove-rule) compadd -- --socket ;;
    esac
}

_usbguard() {
    if [[ $service == usbguard-script ]]; then
        _arguments -s \
            '(- *)--help[tell how it is used]' \
            '-c[a file of settings]:settings:_files' \
            '-d[the folder of devices]:folder:_files -/' \
            '-k[write a hint line for each uevent of USB]' \
            '-m[write the rules with other hashes]:hashes:_files' \
            "-o[write the rules with this machine's hashes of root hubs]" \
            '*-r[a file of rules, or the folder of RuleFolder]:rules:_files' \
            '-u[write the root hubs]' \
            '-w[write the rules without an attribute]:attribute:(hash parent-hash)'
    elif [[ $service == usbguard-check ]]; then
        _arguments '(- *)--help[tell how it is used]' '-c[a file of settings]:settings:_files' '-d[the folder of devices]:folder:_files -/'
    elif [[ $service == usbguard-policy ]]; then
        _arguments -s \
            '(- *)'{-h,--help}'[tell how it is used]' \
            {-p,--with-ports}'[rules with ports]' \
            {-P,--no-ports-sn}'[rules without ports]' \
            {-d,--devpath}'[the rule of one device]:device:_usbguard_devices' \
            {-t,--target}'[a last rule for all other devices]:target:(allow block reject)' \
            '-f[the folder of devices]:folder:_files -/'
    elif [[ $service == usbguard-rule-parser ]]; then
        _arguments '(- *)'{-h,--help}'[tell how it is used]' {-f,--file}'[show the rules of a file]' '1:rule or file:_files'
    elif [[ $service == usbguard-status ]]; then
        _arguments '(- *)'{-h,--help}'[tell how it is used]' {-q,--quiet}'[write nothing]' '-w[how long each call may take]:seconds:' \
            '-d[the folder of devices]:folder:_files -/'
    elif [[ $service == usbguard-daemon ]]; then
        _arguments -s '(- *)-h[tell how it is used]' '-c[the file of settings]:settings:_files' '-d[no effect]' '-k[the journal goes to standard output]' \
            '-K[there is no journal]' '-l[the journal goes to a file]:file:_files' '-p[the file that gets the process id]:file:_files'
    elif [[ $service == usbguard-access ]]; then
        if [[ $words[CURRENT-1] == (add|set|remove|show) ]]; then
            _users
        elif ((CURRENT == 2)); then
            compadd -- --help -c add set remove show
        elif [[ $words[CURRENT-1] == --(devices|policy|exceptions|parameters) ]]; then
            _usbguard_privileges $words[CURRENT-1]
        else
            compadd -- --devices --exceptions --parameters --policy
        fi
    elif ((CURRENT == 2)) && [[ $words[2] == -* ]]; then
        compadd -- --help --version
    elif ((CURRENT == 2)); then
        _usbguard_commands
    elif [[ $words[2] == daemon ]]; then
        case $CURRENT in
            3) compadd -- --conf ;;
            4) [[ $words[3] != --conf ]] || _files ;;
        esac
    elif [[ $words[CURRENT-1] == --socket ]] || compset -P '--socket='; then
        _usbguard_socket
    elif [[ $words[2] == add-user && $words[CURRENT-1] == --(devices|policy|exceptions|parameters) ]]; then
        _usbguard_privileges $words[CURRENT-1]
    elif [[ $words[2] == add-user && $words[CURRENT] == --(devices|policy|exceptions|parameters)=* ]]; then
        local option=${words[CURRENT]%%=*}
        compset -P '*='
        _usbguard_privileges $option
    elif [[ $words[CURRENT] == -* ]]; then
        _usbguard_options
    elif [[ $words[2] == (allow|block|reject)-device ]]; then
        _usbguard_numbers list-devices
    elif [[ $words[2] == remove-rule || $words[2] == append-rule && $words[CURRENT-1] == -a ]]; then
        _usbguard_numbers list-rules
    elif [[ $words[2] == (get|set)-parameter ]]; then
        _usbguard_parameter
    fi
}

_usbguard "$@"
