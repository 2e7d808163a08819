# What is told of long work, on standard error where that is a terminal, and nowhere else.

# Whether this process, or the program that took its place, still runs. One that has ended and whose parent
# has not looked after it has no executable.
is_running() { kill -0 $$ 2>/dev/null && { [ ! -d /proc/self ] || [ -e /proc/$$/exe ]; }; }

# The bytes from place $2 on, $3 of them, of the file $1, as decimal numbers.
bytes() { od -A n -v -t u1 -j "$2" -N "$3" "$1" 2>/dev/null; }

# Tells the records of the stage file $1 that are whole, from the one numbered `record` at byte `at` on, and
# moves both behind them. The length of a record is 36 + 2b + D^2 for the rank b and the dimension D; the
# resolution goes to the degree $2.
tell_records() {
    file=$1 last=$2
    size=$(wc -c <"$file" 2>/dev/null) || return 0
    while [ $((at + 8)) -le "$size" ]; do
        set -- $(bytes "$file" "$at" 8)
        if [ $# -ne 8 ]; then
            return 0
        fi
        length=$(((($1 * 256 + $2) * 256 + $3) * 256 + $4)) rank=$(($7 * 256 + $8))
        if [ $((at + 4 + length)) -gt "$size" ]; then
            return 0
        fi
        dimension=$(square_root $((length - 36 - 2 * rank)))
        kept="coho: stage $record of $last is kept: rank $rank, dimension $dimension"
        at=$((at + 4 + length)) record=$((record + 1))
        if [ $record -le "$last" ]; then
            kept="$kept; stage $record is being computed"
        fi
        echo "$kept" >&2
    done
}

square_root() {
    low=0 high=65536
    while [ $((high - low)) -gt 1 ]; do
        half=$(((low + high) / 2))
        if [ $((half * half)) -le "$1" ]; then low=$half; else high=$half; fi
    done
    echo $low
}

# Tells each stage of the file $1 that is kept, to the last, $2, once the file is newer than the file $3; and
# each minute that passes.
tell_stages() {
    record=1 at=40 began= seconds=0
    while is_running; do
        if [ -z "$began" ] && [ -n "$1" ] && [ -n "$(find -L "$1" -newer "$3" 2>/dev/null)" ]; then
            began=yes
            rm -f "$3"
            echo "coho: stage 1 of $2 is being computed" >&2
        fi
        if [ -n "$began" ]; then
            tell_records "$1" "$2"
        fi
        sleep 1
        seconds=$((seconds + 1))
        if [ $((seconds % 60)) -eq 0 ] && is_running; then
            echo "coho: at work for $((seconds / 60)) min" >&2
        fi
    done
    rm -f "$3"
}

# Begins to tell what the program does with these words, of which `places` has those that name files.
tell_progress_of() {
    if [ ! -t 2 ]; then
        return 0
    fi
    stages= degree= place=0
    for word; do
        place=$((place + 1))
        if is_named $place B; then stages=$word; fi
        if is_named $place N; then degree=$word; fi
    done
    mark=$(mktemp) || return 0
    tell_stages "$stages" "$degree" "$mark" >/dev/null </dev/null &
}
