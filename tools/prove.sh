# Proves and builds the program: each crate that it stands on, several side by side, and at last the
# program itself. To be read by `.` after builds.sh, by the script `spill`; gives `prove`.
#
# Each crate is a run of rt, which keeps what it has proved in the crate's out/. So a build that was
# interrupted goes on where it was.

# Crates by name: all that the program stands on, or those that are ready, where the crates $2 are
# proved and $3 are being proved.
crates() {
    awk -v top="$program" -v list="$1" -v proved="${2-}" -v running="${3-}" \
        -f "$top/tools/crates.awk" "$top/crates.txt"
}

# A crate whose library is newer than its sources needs no run; what is missing all the same, the run of
# the program makes.
find_done() {
    for crate in $(crates all); do
        is_stale "$top/crates/$crate/out/rlib/stamp" "$crate" "src specs proofs" || are_done="$are_done $crate"
    done
}

names_running() {
    for it in $running; do printf '%s ' "${it%:*}"; done
}

# Starts what can start now. A crate that nothing can run beside gets all jobs, another half of them.
start_ready() {
    while [ "$(count $running)" -lt "$at_once" ]; do
        name=$(crates ready "$are_done" "$(names_running)" | head -n 1)
        [ -n "$name" ] || return 0
        share=$(((jobs + 1) / 2))
        if [ -z "$running" ]; then
            beside=$(crates ready "$are_done" "$name" | head -n 1)
            [ -n "$beside" ] && [ "$at_once" -gt 1 ] || share=$jobs
        fi
        start "$name" "$share"
    done
}

# A small count is run as part of the build, which shows that the program works.
start() {
    {
        cd "$top/crates/$1" || exit 1
        if [ "$1" = "$program" ]; then
            exec "$RT" run --jobs "$2" -- count data/in.csv k 2>&1 >/dev/null
        fi
        exec "$RT" lib --jobs "$2" 2>&1
    } </dev/null >"$work/$1" 2>/dev/null 9>&- &
    running="$running $1:$!"
}

# Takes up the runs that have ended.
reap() {
    left=
    for it in $running; do
        if kill -0 "${it#*:}" 2>/dev/null; then
            left="$left $it"
            continue
        fi
        status=0
        wait "${it#*:}" || status=$?
        settle "${it%:*}" "$status" || return 1
    done
    running=$left
}

settle() {
    case $2:" $killed " in
    0:*)
        are_done="$are_done $1"
        [ -n "$columns" ] || say "proved $1, $(count $are_done) of $total crates, $(time_so_far)"
        ;;
    137:*" $1 "* | 247:*" $1 "*) fail "$1" ;;
    # The run was killed, most likely for memory: once more, alone.
    137:* | 247:*)
        killed="$killed $1"
        at_once=1 jobs=1
        ;;
    *) fail "$1" ;;
    esac
}

fail() {
    clear_line
    cat "$work/$1" >&2
    say "the program could not be built: the errors of the crate $1 are above"
    return 1
}

prove_all() {
    while [ "$(count $are_done)" -lt "$total" ]; do
        start_ready
        show "$(count $are_done) of $total crates proved, $(time_so_far), now $(names_running)"
        pause
        reap || return 1
    done
    put_in_place "$out/$program" "$proved"
}

# A run is given 4 GB, and each of its processes 2; more than eight processes seldom help.
prove() {
    begin "$proved" "; what was proved is kept, and ./spill prove goes on from there" || return 1
    look_at_machine
    at_once=$(least "$cores" $((free / 4000)))
    jobs=$(least "$cores" $((free / 2000)) 8)
    killed= are_done=
    total=$(($(crates all | wc -l)))
    find_done
    # The call that was waited for may have built it.
    if ! is_proved; then
        say "proving the program (crates to prove: $((total - $(count $are_done))) of $total); the first time this takes most of an hour"
        prove_all || {
            finish
            return 1
        }
        finish
        say "built: $total of $total crates proved, $(time_so_far)"
    fi
    finish
}
