# What the scripts in bash share: rows that pass or fail, how a failing one is shown, and the last line.
# A script reads it with `. "$top/tests/judge.sh"`, and its last command is `finish`.
passed=0
failed=0
# The words of the command that a row ran.
words=()

# passes: one more row has passed
passes() { passed=$((passed + 1)); }

# fails NAME SEEN WANTED: a row has failed
fails() {
    failed=$((failed + 1))
    printf 'FAILED: %s\n' "$1"
    [ ${#words[@]} -eq 0 ] || { printf '  words: ' && printf ' %q' "${words[@]}" | head -c 500 && echo; }
    printf '  seen:   %s\n  wanted: %s\n' "$2" "$3"
}

# judge NAME STATUS WANTED: compares the statuses, and the files out and err with want.out and want.err
judge() {
    if [ "$2" = "$3" ] && cmp -s out want.out && cmp -s err want.err; then
        passes
    else
        fails "$1" "status $2" "status $3"
        cmp -s out want.out || { printf '  standard output\n' && diff want.out out | head -n 20 | sed 's/^</    wanted:/; s/^>/    seen:  /'; }
        cmp -s err want.err || { printf '  standard error\n' && diff want.err err | head -n 20 | sed 's/^</    wanted:/; s/^>/    seen:  /'; }
    fi
    words=()
}

# same NAME SEEN WANTED: the files have the same bytes
same() {
    if cmp -s "$2" "$3"; then passes; else fails "$1" "$(head -c 300 "$2")" "$(head -c 300 "$3")"; fi
}

# holds NAME STATUS [SEEN]: passes where the status is 0
holds() {
    if [ "$2" -eq 0 ]; then passes; else fails "$1" "${3:-status $2}" 'status 0'; fi
    words=()
}

# expect NAME: passes where the last command did. A command in NAME would be the last one. Of a failing row the script's lines are
# shown, and what the command wrote into `log` or `err`
expect() {
    local status=$? at=${BASH_LINENO[0]} file
    if [ $status -eq 0 ]; then
        passes
        return
    fi
    fails "$1" "status $status" 'status 0'
    printf '  line %s:\n' "$at"
    sed -n "$((at > 2 ? at - 2 : 1)),${at}p" "$(find "$top/tests" -type f -name "${0##*/}" | head -n 1)" | cut -c 1-200 | sed 's/^/    /'
    for file in log err; do
        [ ! -s $file ] || { printf '  %s:\n' $file && tail -n 20 $file | cut -c 1-300 | sed 's/^/    /'; }
    done
    words=()
    return 1
}

# ends_here: prints the last line, and the script ends
ends_here() {
    finish
    exit
}

# finish: prints the last line; the status is 0 where all rows passed
finish() {
    printf '%d passed, %d failed\n' "$passed" "$failed"
    [ "$failed" -eq 0 ] && [ "$passed" -gt 0 ]
}
