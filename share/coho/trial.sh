# A trial: the kit makes the program without a proof and without optimisation, and runs it once on the words.
#
# The kit runs it in a folder of its own, so the words that name files are made absolute for it, and the fault
# lines that repeat such a word are told with the word that was given. The kit's own lines on standard error
# are not passed on; the last of them has the program's status.

# How many seconds the program of a trial may run.
trial_seconds=3600

trial() {
    need_kit
    cat >&2 <<TOLD
coho: this answer comes from a trial, a program that is not proved here and not optimised: it is made anew
coho: for each answer, which takes minutes; \`$0 prove\` makes the proved one, once, in an hour or more
TOLD
    case $places in
        *B*) echo "coho: where stages are saved, \`$0 prove\` first is worth its time as a rule" >&2 ;;
    esac
    work=$(mktemp -d) || exit 70
    trap 'end_trial' EXIT
    trap 'exit 129' HUP
    trap 'exit 130' INT
    trap 'exit 143' TERM
    tell_progress_of "$@"
    remind >/dev/null &
    reminder=$!
    run_trial "$@"
    pass_on
}

# Runs the trial on the words with the paths made absolute, each by `/./` behind the caller's folder, so that
# different words stay different. What is no plain file, as a pipe, is not handed on, so it is copied first.
run_trial() {
    place=0 count=$#
    while [ $place -lt $count ]; do
        place=$((place + 1)) word=$1
        shift
        if is_named $place FILE || is_named $place A; then
            if [ -r "$word" ] && [ ! -f "$word" ] && [ ! -d "$word" ]; then
                cat <"$word" >"$work/word$place"
                word=$work/word$place
            fi
            make_absolute
        elif is_named $place B; then
            make_absolute
        fi
        set -- "$@" "$word"
    done
    (cd "$top/crates/coho_main" && exec rt try --seconds $trial_seconds -- "$@") \
        >"$work/out" 2>"$work/err" </dev/null &
    child=$!
    wait $child
    child=
}

make_absolute() {
    case $word in
        /*) ;;
        *) word=$PWD/./$word ;;
    esac
}

# Writes what the program wrote, and ends with its status.
pass_on() {
    status=$(sed -n 's/^run=ended status=\([0-9]*\) .*/\1/p' "$work/err" | tail -n 1)
    if [ -z "$status" ]; then
        cat "$work/err" >&2
        echo "coho: the trial gave no answer; \`$0 prove\` makes the proved program, without such limits" >&2
        exit 70
    fi
    cat "$work/out"
    while IFS= read -r line; do
        case $line in
            'coho: '*' failed: '"$PWD/./"*)
                printf '%s\n' "${line%%"$PWD/./"*}${line#*"$PWD/./"}" >&2
                ;;
            'coho: '*) printf '%s\n' "$line" >&2 ;;
        esac
    done <"$work/err"
    exit "$status"
}

# Names the proved program again where the trial takes long. A sleep outlives this process, so it holds no
# stream.
remind() {
    seconds=0
    while is_running; do
        sleep 1 2>/dev/null
        seconds=$((seconds + 1))
        if [ $((seconds % 300)) -eq 0 ]; then
            echo "coho: a trial of $((seconds / 60)) min; \`$0 prove\` makes a program that is faster" >&2
        fi
    done
}

end_trial() {
    kill $child $reminder 2>/dev/null
    rm -rf "$work"
}
