# What the scripts in bash share that look at the processor's time. A script reads it after tests/judge.sh, in a folder of its own.
#
# A command's time is compared with another one's, each the best of several runs that alternate. So neither a clock decides, nor how
# fast the machine is, nor what else it does.
cc -O2 -o bench "$top/tests/peer/bench.c" -ldl || exit 1
# The rows that are tried; all, if there are none.
only=()
tries=5
runs=3
# A run that takes longer has failed, and isn't tried again.
seconds=15

# is_tried NAME: whether the row is one of those asked for
is_tried() {
    local row
    [ ${#only[@]} -gt 0 ] || return 0
    for row in "${only[@]}"; do
        [ "$row" != "$1" ] || return 0
    done
    return 1
}

# is_within SMALL LARGE LIMIT: both times are there, and the second is at most LIMIT times as long
is_within() { awk -v limit="$3" -v small="$1" -v large="$2" 'BEGIN { exit !(small > 0 && large > 0 && large <= limit * small) }'; }

# lesser A B: the lesser of two numbers; the second where the first is empty
lesser() { if [ -n "$1" ] && [ "$1" -lt "$2" ]; then echo "$1"; else echo "$2"; fi; }

# compare NAME LIMIT COMMAND.. :: COMMAND..: passes if the second takes at most LIMIT times as long as the first. If it takes longer both
# are measured again, up to five times in all: another process can make a run slow, and none makes it fast. The best of a try are
# compared, and the best of all tries. What takes more than three times as long as it may isn't measured again.
compare() {
    local name=$1 limit=$2 times small='' large='' verdict=FAILED
    shift 2
    is_tried "$name" || return 0
    for ((n = 0; n < tries; n++)); do
        # The best time of each; 0 if a run has failed.
        mapfile -t times < <(./bench processor $seconds $runs "$@" | awk '{ print $1 + 0 }')
        [ "${times[0]}" -gt 0 ] && [ "${times[1]}" -gt 0 ] || break
        small=$(lesser "$small" "${times[0]}")
        large=$(lesser "$large" "${times[1]}")
        if is_within "${times[@]}" "$limit" || is_within "$small" "$large" "$limit"; then
            verdict=passed
            break
        fi
        is_within "${times[@]}" $((3 * ${limit%.*} + 3)) || break
    done
    if [ $verdict = passed ]; then
        passes
        printf '%-68s %s\n' "$name" "$(shown)"
    else
        words=("$@")
        fails "$name" "$(shown)" "at most $limit times as long"
        words=()
    fi
}

# shown: both times, and how many times as long the second is
shown() {
    awk -v small="${times[0]}" -v large="${times[1]}" -v limit="$limit" -v seconds=$seconds '
        function shown(time) { return time ? sprintf("%8.1f ms", time / 1000) : "failed, or over " seconds " s" }
        BEGIN { ratio = small && large ? sprintf("%.2f", large / small) : "-"
            printf "%s %s   ratio %s, at most %s\n", shown(small), shown(large), ratio, limit }'
}
