# Completion of hwdb(8) for fish.

# Where the kernel shows its devices.
set -q _hwdb_sys; or set -g _hwdb_sys /sys/devices

# The words before the one that is completed, without options and their values: the command, and its arguments.
function __hwdb_words
    set -l words (commandline -opc)
    set -e words[1]
    set -l skip
    set -l ended
    for word in $words
        if set -q skip[1]
            set -e skip
        else if set -q ended[1]
            echo $word
        else
            switch $word
                case --
                    set ended yes
                case '-*'
                    __hwdb_takes_value $word; and set skip yes
                case '*'
                    echo $word
            end
        end
    end
end

# Whether no command stands there yet.
function __hwdb_none
    test (count (__hwdb_words)) -eq 0
end

# __hwdb_at COMMAND [PLACE]: whether this command stands there, and the word is its argument with this place, from 1.
function __hwdb_at
    set -l words (__hwdb_words)
    test "$words[1]" = $argv[1]; or return 1
    not set -q argv[2]; or test (count $words) -eq $argv[2]
end

# udev's rules put a word in front of those of input devices.
function __hwdb_modalias
    find $_hwdb_sys -name modalias -type f -exec cat '{}' + 2>/dev/null | sed '/^input:/{p; s/^/evdev:/}' | sort -u
end

# The names of devices: what has a file `uevent` is one.
function __hwdb_device
    find $_hwdb_sys -name uevent -type f 2>/dev/null | sed 's|/uevent$||; s|.*/||' | sort -u
end

# The keys that the program knows.
function __hwdb_key
    command hwdb keys 2>/dev/null | string replace -r ' .*' ''
end

function __hwdb_file
    __fish_complete_suffix .hwdb
end

function __hwdb_database
    __fish_complete_suffix .bin
end

# Databases and text files first, and then all else.
function __hwdb_side
    set -l all (__fish_complete_path (commandline -ct))
    string match -r '.*\.(?:bin|hwdb)(?:\t.*)?$' -- $all
    string match -rv '\.(?:bin|hwdb)(?:\t.*)?$' -- $all
end

complete -c hwdb -f
# From here on completions/from-help has made it of the program's help.
function __hwdb_takes_value
    contains -- $argv[1] -r --root --color --after --limit --from --udev --allow --baseline --name --format --database --devices --only --not --prefix --count
end

# The words that `help` takes.
function __hwdb_command
    printf '%s\n' update query explain ask list near device check test diff verify dump status keys scan help
end

complete -c hwdb -n __hwdb_none -a update -d 'Compiles the text files of /etc/udev/hwdb.d and /usr/lib/udev/hwdb.d into /etc/udev/hwdb.bin'
complete -c hwdb -n __hwdb_none -a query -d 'Prints the properties that the database gives each device, as KEY=VALUE lines'
complete -c hwdb -n __hwdb_none -a explain -d 'Prints the properties that the database gives a device, and where each comes from'
complete -c hwdb -n __hwdb_none -a ask -d 'Prints the properties that one text file gives a device, as KEY=VALUE lines'
complete -c hwdb -n __hwdb_none -a list -d 'Prints each assignment of the database that matches a device, with its position'
complete -c hwdb -n __hwdb_none -a near -d 'Prints the patterns that match a device, and the nearest that don\'t, with the place where each stops'
complete -c hwdb -n __hwdb_none -a device -d 'Prints the strings that udev asks the database for a device, and what each gives; without DEVICE lists the devices'
complete -c hwdb -n __hwdb_none -a check -d 'Says what is wrong in text files and rules files, or hardly meant, and writes no database'
complete -c hwdb -n __hwdb_none -a test -d 'Says whether a database gives devices the properties that test files want'
complete -c hwdb -n __hwdb_none -a diff -d 'Prints what changed from one database, text file, folder or root to another: assignments, or what devices get'
complete -c hwdb -n __hwdb_none -a verify -d 'Says whether a file is a database that can be read, and how much is in it'
complete -c hwdb -n __hwdb_none -a dump -d 'Prints a database as a text file'
complete -c hwdb -n __hwdb_none -a status -d 'Says which database is asked, and whether it is what the text files make'
complete -c hwdb -n __hwdb_none -a keys -d 'Prints the keys that a value of KEYBOARD_KEY_.. may be, each with its code'
complete -c hwdb -n __hwdb_none -a scan -d 'Prints the scan code of each key that is pressed on an input device, the key it makes, and the line to write for it'
complete -c hwdb -n __hwdb_none -a help -d 'Print this message or the help of the given subcommand(s)'

complete -c hwdb -n __hwdb_none -l usr -d 'With update: write /usr/lib/udev/hwdb.bin'
complete -c hwdb -n '__hwdb_at update' -l usr -d 'With update: write /usr/lib/udev/hwdb.bin'
complete -c hwdb -n __hwdb_none -s s -l strict -d 'With update: end with status 1 if a line had a fault or a file was left out; with check: if there is a warning'
complete -c hwdb -n '__hwdb_at update' -s s -l strict -d 'With update: end with status 1 if a line had a fault or a file was left out; with check: if there is a warning'
complete -c hwdb -n '__hwdb_at check' -s s -l strict -d 'With update: end with status 1 if a line had a fault or a file was left out; with check: if there is a warning'
complete -c hwdb -n 'not __hwdb_at help' -s r -l root -x -a '(__fish_complete_directories)' -d 'Put PATH in front of the paths of folders and databases'
complete -c hwdb -n __hwdb_none -l color -x -a 'auto always never' -d 'Color the output: auto, always or never; auto does so on a terminal'
complete -c hwdb -n '__hwdb_at query' -l color -x -a 'auto always never' -d 'Color the output: auto, always or never; auto does so on a terminal'
complete -c hwdb -n '__hwdb_at explain' -l color -x -a 'auto always never' -d 'Color the output: auto, always or never; auto does so on a terminal'
complete -c hwdb -n '__hwdb_at ask' -l color -x -a 'auto always never' -d 'Color the output: auto, always or never; auto does so on a terminal'
complete -c hwdb -n '__hwdb_at list' -l color -x -a 'auto always never' -d 'Color the output: auto, always or never; auto does so on a terminal'
complete -c hwdb -n '__hwdb_at near' -l color -x -a 'auto always never' -d 'Color the output: auto, always or never; auto does so on a terminal'
complete -c hwdb -n '__hwdb_at device' -l color -x -a 'auto always never' -d 'Color the output: auto, always or never; auto does so on a terminal'
complete -c hwdb -n '__hwdb_at check' -l color -x -a 'auto always never' -d 'Color the output: auto, always or never; auto does so on a terminal'
complete -c hwdb -n '__hwdb_at test' -l color -x -a 'auto always never' -d 'Color the output: auto, always or never; auto does so on a terminal'
complete -c hwdb -n '__hwdb_at diff' -l color -x -a 'auto always never' -d 'Color the output: auto, always or never; auto does so on a terminal'
complete -c hwdb -n '__hwdb_at verify' -l color -x -a 'auto always never' -d 'Color the output: auto, always or never; auto does so on a terminal'
complete -c hwdb -n '__hwdb_at dump' -l color -x -a 'auto always never' -d 'Color the output: auto, always or never; auto does so on a terminal'
complete -c hwdb -n '__hwdb_at status' -l color -x -a 'auto always never' -d 'Color the output: auto, always or never; auto does so on a terminal'
complete -c hwdb -n '__hwdb_at keys' -l color -x -a 'auto always never' -d 'Color the output: auto, always or never; auto does so on a terminal'
complete -c hwdb -n '__hwdb_at scan' -l color -x -a 'auto always never' -d 'Color the output: auto, always or never; auto does so on a terminal'
complete -c hwdb -n 'not __hwdb_at help' -s h -l help -d 'Print help'
complete -c hwdb -n __hwdb_none -s V -l version -d 'Print version'
complete -c hwdb -n '__hwdb_at update' -l verbose -d 'Say which files are taken, and how many assignments they have'
complete -c hwdb -n '__hwdb_at update' -l skip-unreadable -d 'Leave out a text file that can\'t be read, and say so'
complete -c hwdb -n '__hwdb_at update' -l check -d 'Write and say nothing: the status is that of \'hwdb status\''
complete -c hwdb -n '__hwdb_at query' -l text -d 'Ask the text files of both folders, as update would compile them now, in place of a database'
complete -c hwdb -n '__hwdb_at explain' -l text -d 'Ask the text files of both folders, as update would compile them now, in place of a database'
complete -c hwdb -n '__hwdb_at list' -l text -d 'Ask the text files of both folders, as update would compile them now, in place of a database'
complete -c hwdb -n '__hwdb_at near' -l text -d 'Ask the text files of both folders, as update would compile them now, in place of a database'
complete -c hwdb -n '__hwdb_at device' -l text -d 'Ask the text files of both folders, as update would compile them now, in place of a database'
complete -c hwdb -n '__hwdb_at test' -l text -d 'Ask the text files of both folders, as update would compile them now, in place of a database'
complete -c hwdb -n '__hwdb_at verify' -l text -d 'Ask the text files of both folders, as update would compile them now, in place of a database'
complete -c hwdb -n '__hwdb_at dump' -l text -d 'Ask the text files of both folders, as update would compile them now, in place of a database'
complete -c hwdb -n '__hwdb_at query' -l reload -d 'With -, read a database that was replaced anew, before the next line is answered'
complete -c hwdb -n '__hwdb_at query' -l json -d 'Print JSON, one object a line'
complete -c hwdb -n '__hwdb_at explain' -l json -d 'Print JSON, one object a line'
complete -c hwdb -n '__hwdb_at list' -l json -d 'Print JSON, one object a line'
complete -c hwdb -n '__hwdb_at near' -l json -d 'Print JSON, one object a line'
complete -c hwdb -n '__hwdb_at device' -l json -d 'Print JSON, one object a line'
complete -c hwdb -n '__hwdb_at check' -l json -d 'Print JSON, one object a line'
complete -c hwdb -n '__hwdb_at test' -l json -d 'Print JSON, one object a line'
complete -c hwdb -n '__hwdb_at diff' -l json -d 'Print JSON, one object a line'
complete -c hwdb -n '__hwdb_at status' -l json -d 'Print JSON, one object a line'
complete -c hwdb -n '__hwdb_at keys' -l json -d 'Print JSON, one object a line'
complete -c hwdb -n '__hwdb_at list' -l after -x -d 'Print only what stands after this position, as list prints it'
complete -c hwdb -n '__hwdb_at list' -l limit -x -d 'Print at most N lines; 0 prints nothing'
complete -c hwdb -n '__hwdb_at near' -l limit -x -d 'Print at most N patterns that don\'t match, in place of 3'
complete -c hwdb -n '__hwdb_at device' -l from -x -a '(__hwdb_file)' -d 'Take devices from a file in place of sysfs: what \'udevadm info --export-db\' printed; - for standard input'
complete -c hwdb -n '__hwdb_at device' -l udev -x -a 'system built-in' -d 'By which rules: the machine\'s own, system, or those of systemd 257 and 262, built-in; else its own if it has any'
complete -c hwdb -n '__hwdb_at device' -l why -d 'Tell of each line of the machine\'s own rules that asks whether it does, and what decides'
complete -c hwdb -n '__hwdb_at device' -l strings -d 'Print the strings alone, one a line'
complete -c hwdb -n '__hwdb_at device' -l pattern -d 'Print records to begin with, which fit the device; before --json and --strings'
complete -c hwdb -n '__hwdb_at device' -l all -d 'With --strings: print those of all devices, each once'
complete -c hwdb -n '__hwdb_at check' -l rules -d 'Check rules files: without FILE the system\'s own in udev/rules.d of /etc, /run, /usr/local/lib and /usr/lib; - is one, too'
complete -c hwdb -n '__hwdb_at check' -l allow -x -a 'byte-order-mark leading-tab carriage-return open-bracket empty-range spaced-equals cut-value repeated-match replaced near-name old-name scan-code unknown-key unfit-value zero-row singular-matrix two-defaults unread unknown-property unpaired unknown-prefix dead-pattern unlikely-pattern too-long-for-udev fragile-pattern taken-as-set no-separator' -d 'Leave out warnings of these kinds, with commas between; may come more than once'
complete -c hwdb -n '__hwdb_at check' -l baseline -x -a '(__hwdb_file)' -d 'Leave out what this file has, which check --json printed once, as often as it is there'
complete -c hwdb -n '__hwdb_at check' -l name -x -a '(__hwdb_file)' -d 'The path that findings of standard input have'
complete -c hwdb -n '__hwdb_at check' -l diff -d 'Print a patch of all sure mends instead, as patch -p0 and git apply -p0 take it'
complete -c hwdb -n '__hwdb_at check' -l format -x -a 'text json github sarif' -d 'Print findings as text, json, github (annotations) or sarif; --json is --format json'
complete -c hwdb -n '__hwdb_at test' -l record -d 'Print a test file of what the devices have, which holds'
complete -c hwdb -n '__hwdb_at test' -l database -x -a '(__hwdb_database)' -d 'Ask this database, in place of that of /etc/udev or /usr/lib/udev'
complete -c hwdb -n '__hwdb_at diff' -l devices -x -a '(__hwdb_file)' -d 'Compare what the devices of a file get, a line each, or of - for standard input; may come more than once'
complete -c hwdb -n '__hwdb_at diff' -l samples -d 'Compare what devices get that are made of the patterns of both sides, so that they show what changed'
complete -c hwdb -n '__hwdb_at diff' -l verbose -d 'With --devices, say which changed assignments none of them meets'
complete -c hwdb -n '__hwdb_at diff' -l only -x -d 'Compare only files whose name matches this, as 60-*; may come more than once'
complete -c hwdb -n '__hwdb_at diff' -l not -x -d 'Leave out files whose name matches this, as 20-*; may come more than once'
complete -c hwdb -n '__hwdb_at diff' -l prefix -x -d 'Compare only patterns, or devices, that begin with this, as evdev:; may come more than once'
complete -c hwdb -n '__hwdb_at diff' -l stat -d 'Print how many assignments came, went and changed, by file and by key'
complete -c hwdb -n '__hwdb_at diff' -l format -x -a 'grouped lines markdown' -d 'Print changes grouped by record, as lines, one for each with its pattern, or as markdown: tables'
complete -c hwdb -n '__hwdb_at scan' -l count -x -d 'End after N keys'

complete -c hwdb -n '__hwdb_at query' -a '(__hwdb_modalias)' -d MODALIAS
complete -c hwdb -n '__hwdb_at explain 1' -a '(__hwdb_modalias)' -d MODALIAS
complete -c hwdb -n '__hwdb_at ask 1' -k -a '(__hwdb_file)' -d FILE
complete -c hwdb -n '__hwdb_at ask 2' -a '(__hwdb_modalias)' -d MODALIAS
complete -c hwdb -n '__hwdb_at list 1' -a '(__hwdb_modalias)' -d MODALIAS
complete -c hwdb -n '__hwdb_at near' -k -a '(__hwdb_file)' -d FILE
complete -c hwdb -n '__hwdb_at near' -a '(__hwdb_modalias)' -d MODALIAS
complete -c hwdb -n '__hwdb_at device 1' -a '(__hwdb_device)' -d DEVICE
complete -c hwdb -n '__hwdb_at check' -k -a '(__hwdb_file)' -d FILE
complete -c hwdb -n '__hwdb_at test' -k -a '(__hwdb_file)' -d FILE
complete -c hwdb -n '__hwdb_at diff 1' -k -a '(__hwdb_side)' -d OLD
complete -c hwdb -n '__hwdb_at diff 2' -k -a '(__hwdb_side)' -d NEW
complete -c hwdb -n '__hwdb_at verify 1' -k -a '(__hwdb_database)' -d DATABASE
complete -c hwdb -n '__hwdb_at dump 1' -k -a '(__hwdb_database)' -d DATABASE
complete -c hwdb -n '__hwdb_at keys' -a '(__hwdb_key)' -d WORD
complete -c hwdb -n '__hwdb_at scan 1' -a '(__hwdb_device)' -d DEVICE
complete -c hwdb -n '__hwdb_at help 1' -a '(__hwdb_command)' -d COMMAND
# Until here.
