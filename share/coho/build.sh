# The proved program: whether it is there, and the making of it.

# The texts in these files and folders that a build reads and that are newer than the file $1.
newer() {
    than=$1
    shift
    (cd "$top" && find "$@" -name out -prune -o -name must-fail -prune -o \
        \( -name '*.rt' -o -name '*.antt' -o -name crates.txt \) -type f -newer "$than" -print)
}

# The crates of which the program is made, in the order in which they are proved; the program is the last.
crates() {
    awk -F: '
        function visit(crate, count, used, i) {
            if (!(crate in uses) || crate in seen) return
            seen[crate]
            count = split(uses[crate], used, " ")
            for (i = 1; i <= count; i++) visit(used[i])
            print crate
        }
        { uses[$1] = $2 }
        END { visit("coho_main") }' "$top/crates.txt"
}

# An installed program was proved where it was made.
is_proved() {
    if [ ! -x "$program" ]; then
        return 1
    fi
    [ -n "$installed" ] || [ -z "$(newer "$program" crates.txt $(crates | sed 's|^|crates/|'))" ]
}

# Tells which crate is being proved, as long as this script runs. A library that is being made has a folder
# rlib without the file stamp.
tell_proofs() {
    names=$(crates | grep -v '^coho_main$')
    folders=$(echo "$names" | sed 's|^|crates/|')
    count=$(($(echo "$names" | wc -l) + 1))
    told=
    while is_running; do
        number=0 now= last=
        for name in $names; do
            number=$((number + 1)) last=$top/crates/$name/out/rlib
            if [ -d "$last" ] && [ ! -e "$last/stamp" ]; then
                now="$name, crate $number of $count"
                break
            fi
        done
        if [ -z "$now" ] && [ -e "$last/stamp" ] && [ -z "$(newer "$last/stamp" $folders)" ]; then
            now="coho_main, crate $count of $count"
        fi
        if [ -n "$now" ] && [ "$now" != "$told" ]; then
            echo "coho: proving $now" >&2
            told=$now
        fi
        sleep 1
    done
}

need_kit() {
    if ! command -v rt >/dev/null; then
        echo 'coho: no program is built here, and the command rt of the Rattle kit is not on the path' >&2
        exit 70
    fi
}

prove() {
    if [ -n "$installed" ]; then
        echo "coho: this program was proved where it was made; $documents/BUILD tells of it" >&2
        return
    fi
    if is_proved; then
        echo 'coho: the program is proved and built' >&2
        return
    fi
    need_kit
    echo "coho: proving every function, which takes long on a fresh machine" >&2
    log=$(mktemp) || exit 70
    tell_proofs &
    teller=$!
    (cd "$top/crates/coho_main" && rt run -- group "$top/examples/trivial.coho") >"$log" 2>&1 </dev/null
    status=$?
    kill $teller
    if [ $status -ne 0 ]; then
        tail -n 40 "$log" >&2
        echo "coho: the program could not be built; $log has all that the build printed" >&2
        exit 70
    fi
    rm -f "$log"
    touch "$program"
    echo 'coho: the program is proved and built' >&2
}
