# What both builds of the program have in common: they wait for one another, show how far they are, end
# what they started when they are interrupted, and replace the program whole. To be read by `.` after
# toolchain.sh, by the script `spill`.

# The processes that were started, each as NAME:PID.
running=

say() {
    echo "spill: $*" >&2
}

# The least of these numbers, but at least 1.
least() {
    printf '%s\n' "$@" | sort -n | awk 'NR == 1 { print ($1 < 1 ? 1 : $1) }'
}

count() {
    echo $#
}

# Sets cores, the processors, and free, the memory in MB.
look_at_machine() {
    cores=$(nproc 2>/dev/null || getconf _NPROCESSORS_ONLN 2>/dev/null || echo 1)
    free=$(sed -n 's/^MemAvailable: *\([0-9]*\) kB$/\1/p' /proc/meminfo 2>/dev/null)
    free=$((${free:-4000000} / 1000))
    # A container may have less.
    limit=$(cat /sys/fs/cgroup/memory.max 2>/dev/null || echo max)
    [ "$limit" = max ] || [ $((limit / 1000000)) -ge "$free" ] || free=$((limit / 1000000))
}

time_so_far() {
    seconds=$(($(date +%s) - began))
    printf '%d:%02d' $((seconds / 60)) $((seconds % 60))
}

# The width of the line that is renewed, or nothing if standard error is no terminal.
width() {
    [ -t 2 ] || return 0
    columns=$(stty size <&2 2>/dev/null | cut -d ' ' -f 2)
    [ "${columns:-0}" -ge 20 ] || columns=80
    echo $((columns - 1))
}

# At a terminal one line is renewed in place.
show() {
    [ -n "$columns" ] || return 0
    [ "$1" = "$shown" ] || printf "\r%-$columns.${columns}s" "spill: $1" >&2
    shown=$1
}

clear_line() {
    [ -z "$columns" ] || printf "\r%${columns}s\r" "" >&2
}

pause() {
    sleep 0.2 2>/dev/null || sleep 1
}

# Begins the build of a file: waits while another call builds it, where the system has flock, and sets
# work, a folder for the build. $2 is said if the build is interrupted. The lock ends with the call.
begin() {
    mkdir -p "$out" 2>/dev/null && : >"$1.lock" 2>/dev/null || {
        say "crates/$program/out can't be written: copy the repository to a folder of your own"
        return 1
    }
    exec 9>"$1.lock"
    if command -v flock >/dev/null 2>&1 && ! flock -n 9; then
        say "waiting for another call, which builds the program"
        flock 9
    fi
    work=$(mktemp -d) && : >"$work/.start" || return 1
    columns=$(width)
    shown=
    when_interrupted=$2
    began=$(date +%s)
    trap 'interrupted 129' HUP
    trap 'interrupted 130' INT
    trap 'interrupted 143' TERM
}

# Ends the build, and what it has started.
finish() {
    for it in $running; do kill "${it##*:}" 2>/dev/null; done
    wait
    running=
    rm -rf "$work"
    trap - HUP INT TERM
    clear_line
    exec 9>&-
}

interrupted() {
    trap '' HUP INT TERM
    finish
    say "interrupted$when_interrupted"
    exit "$1"
}

# The file $2 is replaced whole by $1. It is dated at the start of the build, so that a source that was
# changed meanwhile is newer.
put_in_place() {
    cp "$1" "$2.part" &&
        touch -r "$work/.start" "$2.part" &&
        mv "$2.part" "$2"
}
