# Completion of hwdb(8) for bash, by way of bash-completion.

# Where the kernel shows its devices.
: "${_hwdb_sys:=/sys/devices}"

# _hwdb_reply: adds each line of standard input that begins with $cur, quoted by $form, to the completions
_hwdb_reply() {
    local line
    while IFS= read -r line; do
        [[ $line == "$cur"* ]] && COMPREPLY+=("$(printf "$form" "$line")")
    done
}

# _hwdb_value KIND: completions of an argument, of a value of an option of $command, or of the command, one of the table `arguments`
_hwdb_value() {
    case $1 in
        FILE) _filedir '@(hwdb|rules|test)' ;;
        DATABASE) _filedir bin ;;
        OLD | NEW) _filedir '@(bin|hwdb)' ;;
        PATH) _filedir -d ;;
        COMMAND) mapfile -t COMPREPLY < <(compgen -W "${!arguments[*]}" -- "$cur") ;;
        MODALIAS)
            # udev's rules put a word in front of those of input devices.
            _hwdb_reply < <(find "$_hwdb_sys" -name modalias -type f -exec cat {} + 2>/dev/null |
                sed '/^input:/{p; s/^/evdev:/}' | LC_ALL=C sort -u)
            __ltrim_colon_completions "$cur"
            ;;
        DEVICE)
            _hwdb_reply < <(find "$_hwdb_sys" -name uevent -type f 2>/dev/null | sed 's|/uevent$||; s|.*/||' | LC_ALL=C sort -u)
            __ltrim_colon_completions "$cur"
            ;;
        # The keys that the program knows.
        WORD) _hwdb_reply < <(command "${words[0]}" keys 2>/dev/null | sed 's/ .*//') ;;
        # Words of the command's own, or of all commands.
        *) mapfile -t COMPREPLY < <(compgen -W "${kinds_of[$command $1]-${kinds_of[$1]-}}" -- "$cur") ;;
    esac
}

_hwdb() {
    local cur prev words cword split form='%q'
    _init_completion -s -n : || return

    # From here on completions/from-help has made it of the program's help.
    # The arguments of each command. One that ends in .. may be given again and again, and | is between two that may be there.
    local -A arguments=(
        [update]=''
        [query]='MODALIAS..'
        [explain]='MODALIAS'
        [ask]='FILE MODALIAS'
        [list]='MODALIAS'
        [near]='FILE|MODALIAS..'
        [device]='DEVICE'
        [check]='FILE..'
        [test]='FILE..'
        [diff]='OLD NEW'
        [verify]='DATABASE'
        [dump]='DATABASE'
        [status]=''
        [keys]='WORD..'
        [scan]='DEVICE'
        [help]='COMMAND'
    )
    local -A options=(
        [hwdb]='--usr -s --strict -r --root --color -h --help -V --version'
        [update]='--usr -s --strict -r --root --verbose --skip-unreadable --check -h --help'
        [query]='-r --root --color --text --reload --json -h --help'
        [explain]='-r --root --color --text --json -h --help'
        [ask]='-r --root --color -h --help'
        [list]='-r --root --color --after --limit --text --json -h --help'
        [near]='-r --root --color --limit --text --json -h --help'
        [device]='-r --root --color --from --udev --why --text --strings --json --pattern --all -h --help'
        [check]='-s --strict -r --root --color --rules --allow --baseline --name --diff --format --json -h --help'
        [test]='-r --root --color --record --database --text --json -h --help'
        [diff]='-r --root --color --devices --samples --verbose --only --not --prefix --stat --format --json -h --help'
        [verify]='-r --root --color --text -h --help'
        [dump]='-r --root --color --text -h --help'
        [status]='-r --root --color --json -h --help'
        [keys]='-r --root --color --json -h --help'
        [scan]='-r --root --color --count -h --help'
        [help]=''
    )
    local -A values=(
        [-r]='PATH'
        [--root]='PATH'
        [--color]='WHEN'
        [--after]='POS'
        [--limit]='N'
        [--from]='FILE'
        [--udev]='WHICH'
        [--allow]='KIND'
        [--baseline]='FILE'
        [--name]='NAME'
        [--format]='FORMAT'
        [--database]='DATABASE'
        [--devices]='FILE'
        [--only]='GLOB'
        [--not]='GLOB'
        [--prefix]='TEXT'
        [--count]='N'
    )
    local -A kinds_of=(
        [KIND]='byte-order-mark leading-tab carriage-return open-bracket empty-range spaced-equals cut-value repeated-match replaced near-name old-name scan-code unknown-key unfit-value zero-row singular-matrix two-defaults unread unknown-property unpaired unknown-prefix dead-pattern unlikely-pattern too-long-for-udev fragile-pattern taken-as-set no-separator'
        [WHEN]='auto always never'
        [WHICH]='system built-in'
        [check FORMAT]='text json github sarif'
        [diff FORMAT]='grouped lines markdown'
    )
    # Until here.

    # The command, and which of its arguments the word is.
    local command=hwdb place=0 ended='' word i
    for ((i = 1; i < cword; i++)); do
        word=${words[i]}
        if [[ -z $ended && $word == -- ]]; then
            ended=yes
        elif [[ -z $ended && -n ${values[$word]-} ]]; then
            ((i++))
            # bash takes = for a word of its own.
            [[ ${words[i]-} == '=' ]] && ((i++))
        elif [[ -n $ended || $word != -* ]]; then
            if [[ $command == hwdb ]]; then command=$word; else ((place++)); fi
        fi
    done

    if [[ -z $ended && -n ${values[$prev]-} ]]; then
        _hwdb_value "${values[$prev]}"
    elif [[ -z $ended && $cur == -* ]]; then
        mapfile -t COMPREPLY < <(compgen -W "${options[$command]-}" -- "$cur")
    elif [[ $command == hwdb ]]; then
        _hwdb_value COMMAND
    else
        local kinds=(${arguments[$command]-})
        local last=$((${#kinds[@]} - 1))
        [[ $place -gt $last && $last -ge 0 && ${kinds[last]} == *.. ]] && place=$last
        word=${kinds[place]-}
        # bash itself quotes what may be a file.
        [[ $word == *'|'* ]] && form='%s'
        for word in ${word//[|.]/ }; do
            _hwdb_value "$word"
        done
    fi
} && complete -F _hwdb hwdb
