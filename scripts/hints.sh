# What the program's one line means and what mends it, for a person at a terminal; for the script r4k, whose names these lines use.
# What they say is read from the documents, so that it stands in one place.

tell() {
    printf '  %s\n' "$1" >&2
}

# The rows of the README's table of words: a command and the names of its words.
commands() {
    sed -n '/^| Words |/,/^$/s/^| `\([^`]*\)` |.*/\1/p' "$top/README.md"
}

# The cell beside a key in a table of a document.
sentence() {
    awk -F' *[|] *' -v key="$2" '$2 == key { gsub(/`/, "", $3); print $3; exit }' "$top/$1" 2>/dev/null
}

# The names of the shapes, as the README's row of run has them.
shapes() {
    sed -n '/^| `run /{s/.*SHAPE is \([^,;]*\).*/\1/;s/[`,]//g;s/ or / /gp;}' "$top/README.md"
}

# How the program is called, and which of the words is wrong.
hint_usage() {
    local command=${1-} row at word
    local -a wanted=()
    while read -r row; do
        tell "r4k $row"
        [ "${row%% *}" != "$command" ] || read -ra wanted <<<"$row"
    done < <(commands)
    tell "SHAPE: $(shapes). SCRIPT and DISK: a file, or -. STEPS: 0 to 4294967295."
    tell "For example: ./r4k check pc/16 examples/hello.elf - - 100000      (README.md, Use; docs/GUIDE.md)"
    case $command in
    '' | -h | --help | --version) return ;;
    esac
    if [ "${#wanted[@]}" = 0 ]; then
        tell "'$command' is no command"
        return
    fi
    if [ $# != "${#wanted[@]}" ]; then
        tell "$command takes $((${#wanted[@]} - 1)) words, and $(($# - 1)) came"
    fi
    for at in "${!wanted[@]}"; do
        [ "$at" -lt $# ] || break
        word=${*:at+1:1}
        case ${wanted[at]} in
        SHAPE) [[ " $(shapes) " == *" $word "* ]] || tell "'$word' is no SHAPE" ;;
        STEPS)
            [[ $word =~ ^(0|[1-9][0-9]{0,9})$ ]] && [ "$word" -le 4294967295 ] ||
                tell "'$word' is no number of STEPS: decimal, without a leading zero"
            ;;
        esac
    done
}

# Of the files that the command reads, by the names of its words: those that cannot be read, or those above a limit.
hint_files() {
    local what=$1 row at word size most
    shift
    local -a wanted=()
    while read -r row; do
        [ "${row%% *}" != "$1" ] || read -ra wanted <<<"$row"
    done < <(commands)
    for at in "${!wanted[@]}"; do
        word=${*:at+1:1}
        case ${wanted[at]} in
        IMAGE | SOURCE) most=16777216 ;;
        SCRIPT) most=16777216 ;;
        DISK) most=33554432 ;;
        TRACE) most=67108864 ;;
        *) continue ;;
        esac
        case ${wanted[at]} in
        SCRIPT | DISK) [ "$word" != - ] || continue ;;
        esac
        if [ "$what" = long ]; then
            size=$(stat -L -c %s -- "$word" 2>/dev/null) && [ "$size" -gt "$most" ] &&
                tell "$word has $size bytes, and ${wanted[at]} may have $most"
        elif [ ! -e "$word" ]; then
            tell "$word: no such file"
        elif [ -d "$word" ]; then
            tell "$word: a folder"
        elif [ ! -r "$word" ]; then
            tell "$word: may not be read"
        fi
    done
}

# A line of a file, and what a table says of the reason.
hint_line() {
    local file=$1 number=$2 document=$3 reason=$4
    tell "$file, line $number: $(sed -n "${number}p" -- "$file" 2>/dev/null | cut -c1-120 | cat -v)"
    [ -z "$reason" ] || tell "$reason: $(sentence "$document" "$reason") ($document)"
}

# hint STATUS LINE WORD..: the program's status, what it wrote to standard error, and the words that it was called with.
hint() {
    local status=$1 answer=$2 folder image
    local -a said
    read -ra said <<<"$answer"
    shift 2
    case $status in
    1) [ "$1" != check ] || tell "Who made it so: examples/why ${*:2:4}" ;;
    2) hint_usage "$@" ;;
    3) hint_files missing "$@" ;;
    4)
        case $1 in
        asm) folder=$(dirname -- "$3") ;;
        run | check | trace) folder=$(dirname -- "$5") ;;
        *) folder= ;;
        esac
        if [ -n "$folder" ] && [ ! -d "$folder" ]; then
            tell "$folder: no such folder"
        elif [ -n "$folder" ] && [ ! -w "$folder" ]; then
            tell "$folder: may not be written"
        else
            tell "Where the text or the file goes there is no room, or it may not be written"
        fi
        ;;
    5)
        image=$2
        [ "$1" = dis ] || image=$3
        tell "$image, ${said[1]} at offset ${said[2]}: broken where $(sentence docs/IMAGES.md "${said[1]}") (docs/IMAGES.md)"
        ;;
    6) hint_line "$4" "${said[1]}" docs/SCRIPTS.md "${said[2]}" ;;
    7) hint_line "$2" "${said[1]}" docs/ASSEMBLER.md "${said[2]}" ;;
    9) hint_line "$3" "${said[1]}" docs/REPORT.md "" ;;
    10) hint_files long "$@" ;;
    esac
}
