# Proves and builds the program, two or three crates at a time where none waits for another. Part of `iolmaster`.
# Four processors are often two, which do more by four threads.
at_once=2
[ "$(nproc)" -lt 4 ] || at_once=3
usual_gigabytes=6
# Crates of tests and of other programs that are proved beside the program, where `tests/proofs` asks for them.
also=${PROVED_TOO:-}

# What a crate's proof took where it was measured: its functions, and its seconds. Of these only the share of each crate counts.
measured() {
    sed -n "s/^$1 //p" "$top/launcher/measured.txt"
}

# The functions of a crate that are checked by now, all of them, and its share of the work, as `10 47 131`.
progress_of() {
    usual=$(measured "$1")
    usual=${usual:-50 150}
    all=${usual% *}
    checked=0
    counted=$(sed -n 's/^so far: \([0-9]*\) of \([0-9]*\) functions checked.*/\1 \2/p' "$out/build.$1.log" 2>/dev/null | tail -n 1)
    if [ -n "$counted" ]; then
        checked=${counted% *}
        all=${counted#* }
    fi
    case " $waiting " in *" $1 "*) checked=0 ;; esac
    if worked "$1"; then checked=$all; fi
    # What was taken took no time, so it says nothing of the time that is left.
    if [ -e "$out/built/$1.taken" ]; then usual="$all 0"; fi
    echo "$checked $all ${usual#* }"
}

# Says how many functions are checked, and the minutes left if the rest takes as long for its share as what is done took.
say_progress() {
    for crate in $crates; do progress_of "$crate"; done | awk -v seconds="$(($(date +%s) - begun))" -v running="$running" '
        { checked += $1; all += $2; share += $3; if ($2) done += $3 * $1 / $2 }
        END {
            if (done) left = sprintf(", about %d minutes left", seconds * (share - done) / done / 60 + 1)
            printf "iolmaster: %d of about %d functions checked%s; now%s\n", checked, all, left, running
        }' >&2
    told=$(date +%s)
}

# Says it often on a terminal, and seldom in a log.
say_progress_in_time() {
    if [ -t 2 ]; then every=10; else every=60; fi
    [ "$(($(date +%s) - told))" -lt "$every" ] || say_progress
}

# All crates that are proved.
wanted_crates() {
    for wanted in "$main" $also; do crates_of "$wanted"; done | awk '!seen[$0]++'
}

# Those of them that a crate names.
named_by() {
    for named in $(sed -n "s/^$1\( [^:]*\)*: *\([^#]*\).*/\2/p" "$top/crates.txt"); do
        case " $crates " in *" $named "*) echo "$named" ;; esac
    done
}

# All of them, that first behind which the longest row of proofs waits.
in_order() {
    awk -v wanted="$(wanted_crates | tr '\n' ' ')" '
        BEGIN { count = split(wanted, order, " ") }
        NR == FNR { seconds[$1] = $3; next }
        { sub(/#.*/, ""); colon = index($0, ":") }
        colon { split(substr($0, 1, colon - 1), words, " "); named[words[1]] = substr($0, colon + 1) }
        END {
            for (at = 1; at <= count; at++) row[order[at]] = own(order[at])
            # A row may grow in each round, and none is longer than there are crates.
            for (round = 1; round <= count; round++)
                for (at = 1; at <= count; at++) {
                    number = split(named[order[at]], below, " ")
                    for (next_one = 1; next_one <= number; next_one++) {
                        longer = row[order[at]] + own(below[next_one])
                        if (longer > row[below[next_one]]) row[below[next_one]] = longer
                    }
                }
            for (at = 1; at <= count; at++) print row[order[at]], order[at]
        }
        function own(crate) { return crate in seconds ? seconds[crate] : 150 }' \
        "$top/launcher/measured.txt" "$top/crates.txt" | sort -rn | sed 's/.* //'
}

# The line of a crate in crates.txt.
line_of() {
    awk -v name="$1" '{ line = $0; sub(/#.*/, ""); sub(/:.*/, "") } $1 == name { print line }' "$top/crates.txt"
}

# Where a crate is proved: a folder of its own, with what it stands on. `rt` lets one command at a time into a crate and those
# below it, so in one folder two crates that stand on a third would wait for one another.
room_of() {
    echo "$out/rooms/$1"
}

# Lays out a crate's room: its sources, and those of what it stands on, each with its built library, by links. What an earlier
# proof of the crate kept moves in.
make_room() {
    room=$(room_of "$1")
    give_back "$1"
    mkdir -p "$room/crates" || return
    for named in $(crates_of "$1"); do
        # `rt` wants the folder of each crate that is listed, so that no other is.
        line_of "$named" >>"$room/crates.txt" || return
        mkdir -p "$room/crates/$named/out" &&
            find "$top/crates/$named" -mindepth 1 -maxdepth 1 ! -name out -exec cp -al {} "$room/crates/$named/" \; || return
        [ "$named" = "$1" ] || cp -al "$top/crates/$named/out/rlib" "$room/crates/$named/out/" || return
    done
    [ ! -d "$top/crates/$1/out/incremental" ] || mv "$top/crates/$1/out/incremental" "$room/crates/$1/out/"
}

# Moves what was made and kept in a crate's room to the crate, and removes the room: `rt ci` refuses sources that lie in `out/`.
give_back() {
    room=$(room_of "$1")
    for made in "$room/crates/$1/out"/*; do
        [ -e "$made" ] && mkdir -p "$top/crates/$1/out" && rm -rf "$top/crates/$1/out/${made##*/}" && mv "$made" "$top/crates/$1/out/"
    done
    rm -rf "$room"
}

# The words for `rt` that prove and build a crate with so many jobs. `rt` says how many tests and other programs have.
words_of() {
    case "$main $also " in
        "$1 "*) echo "run --jobs $2 -- --help" ;;
        *" $1 "*)
            if [ -e "$top/crates/$1/src/main.rt" ]; then
                echo "run -- --help"
            elif grep -rqE '^ *#\[test\]' "$top/crates/$1/src"; then
                echo test
            else
                echo lib
            fi ;;
        *) echo "lib --jobs $2" ;;
    esac
}

# Proves and builds a crate with so many jobs, unless this machine has kept what was built of the same texts; `built/CRATE` then holds
# the status, which is 0 where it worked.
build_crate() {
    crate=$1
    if "$top/launcher/proved.py" take "$crate" >"$out/build.$crate.log" 2>&1; then
        : >"$out/built/$crate.taken"
        status=0
    else
        prove_crate "$crate" "$2"
    fi
    echo "$status" >"$out/built/$crate.new" && mv "$out/built/$crate.new" "$out/built/$crate"
}

prove_crate() {
    texts=$("$top/launcher/proved.py" sum "$1")
    set -- $(words_of "$1" "$2")
    (make_room "$crate" && cd "$(room_of "$crate")/crates/$crate" && exec "$top/launcher/quick_rt.py" "$@") </dev/null >"$out/build.$crate.log" 2>&1 &
    child=$!
    # (the shell says `Terminated` where it is not yet waiting for the child)
    trap 'kill "$child" 2>/dev/null; wait "$child" 2>/dev/null; give_back "$crate"; exit 1' HUP INT TERM
    wait "$child"
    status=$?
    give_back "$crate"
    # (what cannot be kept is proved again, and no more)
    [ "$status" -ne 0 ] || grep '^logic=' "$out/build.$crate.log" | tail -n 1 | "$top/launcher/proved.py" put "$crate" "$texts" || true
}

ended() {
    [ -e "$out/built/$1" ]
}

worked() {
    ended "$1" && [ "$(cat "$out/built/$1")" -eq 0 ]
}

has_all_it_names() {
    for named in $(named_by "$1"); do
        worked "$named" || return 1
    done
}

# The crates that wait for no other.
ready() {
    for crate in $waiting; do
        if has_all_it_names "$crate"; then echo "$crate"; fi
    done
}

# Starts the first crate that waits for no other; fails where there is none now. The last that can be started now gets the processors
# that are left.
start_next() {
    set -- $(ready)
    [ $# -gt 0 ] || return 1
    # A crate that has ended may not be collected yet.
    beside=$(for other in $running; do ended "$other" || echo "$other"; done | wc -w)
    jobs=1
    [ $# -gt 1 ] || jobs=$((at_once - beside))
    number=$((number + 1))
    say "crate $number of $count: $1"
    (exec 9>&-; build_crate "$1" "$jobs") &
    workers="$workers $!"
    running="$running $1"
    waiting=$(echo " $waiting " | sed "s/ $1 / /")
}

# Drops the crates that have ended from those that run; fails where one was not built.
collect() {
    left=
    for crate in $running; do
        if ! ended "$crate"; then
            left="$left $crate"
        elif ! worked "$crate"; then
            say "$crate could not be proved and built; $out/build.$crate.log says why."
            return 1
        fi
    done
    running=$left
}

stop_workers() {
    for worker in $workers; do kill "$worker" 2>/dev/null; done
    wait
}

build_crates() {
    crates=$(in_order | tr '\n' ' ')
    waiting=$crates
    count=$(echo "$crates" | wc -w)
    number=0
    running=
    workers=
    begun=$(date +%s)
    told=$begun
    trap 'stop_workers; exit 1' HUP INT TERM
    while [ -n "$running" ] || [ -n "$(echo $waiting)" ]; do
        while [ "$(echo "$running" | wc -w)" -lt "$at_once" ] && start_next; do :; done
        if [ -z "$running" ]; then
            say "crates.txt names crates that wait for one another: $waiting"
            return 1
        fi
        # No child has the lock, so that it ends with this start also where that is killed.
        sleep 1 9>&-
        if ! collect; then
            stop_workers
            return 1
        fi
        say_progress_in_time
    done
    trap - HUP INT TERM
}

# Says what the proof takes, and where the disk has less than it takes beside what earlier proofs left.
say_what_it_takes() {
    say "proving and building the program from its sources: about $usual_minutes minutes on two processors, $usual_gigabytes GB of disk."
    free=$(df -Pk "$top" | awk 'NR == 2 { print $4 }')
    there=$(du -sk "$top"/crates/*/out 2>/dev/null | awk '{ all += $1 } END { print all + 0 }')
    if [ "$((free + there))" -lt "$((usual_gigabytes * 1000000))" ]; then
        say "only $((free / 1000000)) GB of disk are free, which may not be enough."
    fi
}

build() {
    sum=$(sum_of_sources)
    library_sources=$(sum_of_library)
    rm -rf "$out/built" && mkdir "$out/built" && build_crates </dev/null || return 1
    if [ "$(sum_of_sources)" != "$sum" ]; then
        say "a source has changed meanwhile, so the program is not kept."
        return 1
    fi
    keep "$sum" || return
    case " $also " in *" iol_c "*) keep_library "$library_sources" ;; esac
}

# Proves and builds the program where that is not done. A second start waits for the first: the system lets go of the lock
# however that one ends.
prove() {
    # (an `exec` that fails would end the shell)
    mkdir -p "$out" && (: >>"$out/lock") && exec 9>"$out/lock" || return 1
    if ! flock -n 9; then
        say "another start is proving the program; waiting for it."
        flock 9 || return 1
    fi
    if has_proved; then
        say "the program is proved and built."
        exec 9>&-
        return 0
    fi
    say_what_it_takes
    build || return 1
    say "the program is now proved and built."
    exec 9>&-
}
