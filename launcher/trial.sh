# Answers by a trial: the program is built for one answer, checked as it runs, and not proved. Part of `iolmaster`.

# What the program reads of a script: one octet more than a script may have.
script_octets=65537

say_trial() {
    say "this answer is of a trial, which takes a minute or two: the program is checked as it runs, and not proved."
    say "\`./iolmaster prove\` proves and builds it, in about $usual_minutes minutes; it then answers at once."
}

# Says why the trial has no answer, by its own lines.
say_no_answer() {
    case $(grep '^checked: ' "$room/err" | tail -n 1) in
        "checked: no-answer: the program wrote more than "*)
            say "a trial takes no more than 1 MiB of output; \`./iolmaster prove\` makes a program without this bound."
            return "$no_answer"
            ;;
        "checked: no-answer: the program did not end within "*)
            say "a trial runs for no more than a minute; \`./iolmaster prove\` makes a program without this bound."
            return "$no_answer"
            ;;
        "checked: fault "*) say "a check of the trial stopped the program as it ran:" ;;
        *) say "the trial could not be made:" ;;
    esac
    cat "$room/err" >&2
    return "$no_trial"
}

# What the program said on standard error. The last two or three lines there are the trial's own: how the program ended, what
# was looked for of races, and the sum. Another comes first where a name in the sources is reserved.
program_errors() {
    own=2
    ! tail -n 2 "$room/err" | grep -q '^races: ' || own=3
    head -n "$(($(wc -l <"$room/err") - own))" "$room/err" | sed '/^rt: a check will refuse this: /d'
}

# The trial runs the program as `program`, which the help and the texts on wrong words cite.
with_own_name() {
    sed "s/^Usage: program /Usage: iolmaster /; s/^error: 'program' /error: 'iolmaster' /"
}

# Has the trial run with these words of `rt try`, and says what the program said.
try() {
    say_trial
    (cd "$top/crates/$main" && exec rt try "$@") </dev/null >"$room/out" 2>"$room/err" &
    child=$!
    wait "$child"
    status=$?
    child=
    case $(tail -n 1 "$room/err") in
        "run=ended status=$status "*"proved=no") ;;
        *) say_no_answer; return ;;
    esac
    program_errors | with_own_name >&2
    with_own_name <"$room/out" 2>/dev/null || return 1
    return "$status"
}

# Runs a script by the trial, which sees nothing but its octets, under one name whatever its own is.
try_script() {
    if ! { head -c "$script_octets" <"$1" >"$room/script.toml"; } 2>/dev/null; then
        printf 'error: cannot open %s\n' "$1" >&2
        return 1
    fi
    try --data "script.toml=$room/script.toml" -- $asked script.toml
}

# Answers by a trial: a script by its octets, and all other words as they stand.
answer_by_trial() {
    room=$(mktemp -d) || return "$no_trial"
    child=
    trap '[ -z "$child" ] || { kill "$child" && wait "$child"; } 2>/dev/null; rm -rf "$room"' EXIT
    trap 'exit "$no_trial"' HUP INT TERM
    if ask_for_script "$@"; then
        try_script "$script"
    else
        try -- "$@"
    fi
}
