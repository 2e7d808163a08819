# Help, the version, and the answer to the words of a command.

all_help() { table help all "$documents" "$examples"; }

help_of() {
    if ! table known "$1"; then
        exit 2
    fi
    table help command "$1"
}

# The version of a checkout is that of its last tag, where it has one; else that of the file VERSION.
tell_version() {
    number=$(cat "$version")
    commit=
    if [ -z "$installed" ] && [ -e "$top/.git" ]; then
        described=$(git -C "$top" describe --tags --dirty 2>/dev/null) && number=${described#v}
        commit=$(git -C "$top" rev-parse --short HEAD 2>/dev/null) && commit=", commit $commit"
    fi
    echo "coho $number$commit"
    if [ -r "$documents/BUILD" ]; then
        cat "$documents/BUILD"
    fi
    table help version
}

# The words with `--option=WORD` as two words, where the command has that option, go to `answer_words`.
answer() {
    case $* in
        *--*=*) options=" $(table help options "$1") " ;;
        *)
            answer_words "$@"
            return
            ;;
    esac
    count=$#
    while [ $count -gt 0 ]; do
        count=$((count - 1))
        word=$1
        shift
        option=${word%%=*}
        case $options in
            *" $option "*)
                if [ "$option" != "$word" ]; then
                    set -- "$@" "$option" "${word#*=}"
                    continue
                fi
                ;;
        esac
        set -- "$@" "$word"
    done
    answer_words "$@"
}

# Whether the word at place $1 is what the table of commands calls $2.
is_named() { echo "$places" | grep -qx "$1 $2"; }

# The program's answer. Where the words are not those of a command, what is wrong follows its line. The
# program takes this process's place where nothing is to be said after it.
answer_words() {
    if places=$(table words "$@"); then
        if ! is_proved; then
            trial "$@"
        fi
        tell_progress_of "$@"
        exec "$program" "$@"
    fi
    if is_proved; then
        "$program" "$@"
        status=$?
    else
        echo 'coho: the words are not those of a command' >&2
        status=2
    fi
    if [ $status -eq 2 ]; then
        echo "$places" >&2
    fi
    exit $status
}
