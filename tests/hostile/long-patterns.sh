# For tests/hostile/hostile and tests/peer/bench: patterns of some 4,090 bytes over a device of 100,000 bytes, each made so that the
# matcher takes long.

# repeated COUNT TEXT: the text so many times; TEXT has no character that sed's replacement reads otherwise
repeated() { printf "%${1}s" '' | sed "s/ /$2/g"; }

# long_patterns COMMAND: calls it with a name, a pattern, a device, and whether the pattern matches it: yes or no
long_patterns() {
    local letters opens
    letters=$(repeated 100000 b)
    opens=$(repeated 100000 '[')
    "$1" 'open brackets' "*${opens:0:4090}" "$opens" yes
    "$1" 'open brackets before named classes' "*${opens:0:2000}$(repeated 200 '[:alpha:]')" "$opens" no
    "$1" 'letters and stars' "$(repeated 2047 'b*')x" "$letters" no
    "$1" 'letters and stars, which it matches' "$(repeated 2047 'b*')" "$letters" yes
    "$1" 'letters' "*${letters:0:4000}x" "$letters" no
    "$1" 'letters, which it matches' "*${letters:0:4000}" "$letters" yes
    "$1" 'question marks' "*$(repeated 4090 '?')" "$letters" yes
    "$1" 'brackets' "*$(repeated 1022 '[bc]')" "$letters" yes
    "$1" 'a long bracket' "*[${letters:0:4000}]x" "$letters" no
    "$1" 'a long bracket that admits nothing' "*[${letters:0:4000}]x" "$opens" no
    "$1" 'a long bracket that admits nothing, after a letter' "*b[$(repeated 4000 c)]x" "$letters" no
    "$1" 'open brackets before a letter and a star' "*${opens:0:4088}x*" "$opens" no
}
