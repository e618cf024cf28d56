# Words that the cases' commands use beside those of sh.

iolmaster() {
    "${IOLMASTER:?}" "$@"
}

# Runs a script with a stop behind its steps that keeps this: old, new, zero or pattern.
run_keeping() {
    { cat "$2" && printf '\n[[step]]\ndo = "stop"\nkeep = "%s"\n' "$1"; } >"keeping_$1.toml" && iolmaster run "keeping_$1.toml"
}

# Runs a script as it stands, and with each stop behind its steps. All have to say the same, which is said once.
run_keeping_each() {
    iolmaster run "$1" >said 2>told
    status=$?
    for keep in old new zero pattern; do
        run_keeping "$keep" "$1" >"said_$keep" 2>"told_$keep"
        [ $? -eq "$status" ] && cmp -s "said_$keep" said && cmp -s "told_$keep" told || cat "keeping_$keep.toml" "said_$keep"
    done
    cat said
    cat told >&2
    return "$status"
}

# Runs a script again and again, and stops it, or fails the disk, in another place each time.
stops() {
    "${TESTS:?}/stops" "$@"
}

# Runs iolmaster again and again, and makes another call of its files fail, be interrupted or take less each time.
file_calls() {
    "${TESTS:?}/file_calls" "$@"
}

# Runs iolmaster while another process has a file open and locked.
while_locked() {
    locked=$1
    shift
    flock "$locked" "${IOLMASTER:?}" "$@"
}

# Runs iolmaster where no file may reach behind so many sectors, so that a write there fails.
within_sectors() {
    (trap '' XFSZ && ulimit -f "$1" && shift && iolmaster "$@")
}

# Runs iolmaster where it may map so many kilobytes; the stack of each thread takes 8,192 of them.
within_kilobytes() {
    (export MALLOC_ARENA_MAX=1 && ulimit -v "$1" && shift && iolmaster "$@")
}

# What `iolmaster show` prints, made of what it prints as JSON by another reader.
lines_of_json() {
    "${TESTS:?}/json_lines"
}

# Runs iolmaster on an image file that is there, and tells its disk calls, or stops the power or fails a call at each of them.
disk_calls() {
    "${TESTS:?}/disk_calls" "$@"
}

# Writes a.img, an image that tests/map_images.py makes by these words.
made_image() {
    PYTHONPATH="${TESTS:?}" python3 -B -c "from map_images import *; open('a.img', 'wb').write(($1).octets)"
}

# Plays what no command of iolmaster does: a schedule, a master in memory, the clients of a master (crates/iol_plays).
plays() {
    timeout 40 "${PLAYS:?}" "$@"
}

# Runs another word, with the calls of its files held, lost or failed as the first word says (tests/hold_calls.c).
with_held_calls() {
    (export LD_PRELOAD="${HOLD_CALLS_SHIM:?}" HELD_CALLS="$1" && shift && "$@")
}

# Waits until a command succeeds, half a minute at most.
wait_for() {
    turns=0
    until "$@" || [ "$turns" -ge 3000 ]; do
        turns=$((turns + 1))
        sleep 0.01
    done
}
