# shellcheck shell=sh
# What tests/program and tests/command share: a temporary folder, runs, and what must hold of them. The script has
# set `me`, its name.
room=$(mktemp -d) || exit 2
chmod 755 "$room" # nobody looks into it too
trap 'rm -rf "$room"' EXIT
trap 'exit 130' INT
trap 'exit 143' TERM
trap : PIPE # what is tried may end before it is written to
tried=0 failures=0
input=/dev/null # of what `start` starts

# Names what is tried, for the checks after it.
trying() { # TEXT
    what=$1
    tried=$((tried + 1))
}

failed() { # TEXT
    printf '%s: %s: %.600s\n' "$me" "$what" "$1"
    failures=$((failures + 1))
}

# Runs a command, a minute at most, and keeps its status and what it writes.
run() { # COMMAND..
    timeout 60 "$@" > "$room/out" 2> "$room/err"
    status=$?
}

status_is() { # NUMBER
    [ "$status" = "$1" ] || failed "status $status, not $1; it said: $(cat "$room/err")"
}

out_is() { # FILE
    cmp -s "$room/out" "$1" || failed "it printed something else than $1: $(cmp "$room/out" "$1" 2>&1)"
}

no_out() {
    [ ! -s "$room/out" ] || failed "it printed $(head -n 1 "$room/out")"
}

out_has() { # TEXT
    grep -qF -e "$1" "$room/out" || failed "it did not print '$1' but: $(cat "$room/out")"
}

# Standard error is this line alone.
err_is() { # TEXT
    printf '%s\n' "$1" | cmp -s - "$room/err" || failed "it did not say '$1' alone but: $(cat "$room/err")"
}

no_err() {
    [ ! -s "$room/err" ] || failed "it said: $(cat "$room/err")"
}

err_has() { # TEXT
    grep -qF -e "$1" "$room/err" || failed "it did not say '$1' but: $(cat "$room/err")"
}

# Starts a command in the background, and keeps what it writes under a name.
start() { # NAME COMMAND..
    name=$1
    shift
    env --default-signal=INT "$@" < "$input" > "$room/$name.out" 2> "$room/$name.err" &
    echo "$!" > "$room/$name.pid"
}

# Waits for its end. Its status and what it wrote are then as after `run`.
finish() { # NAME
    pid=$(cat "$room/$1.pid")
    soon gone "$pid" || kill "$pid"
    wait "$pid" 2> /dev/null
    status=$?
    mv "$room/$1.out" "$room/out"
    mv "$room/$1.err" "$room/err"
}

# Waits until a command succeeds, twenty seconds at most.
soon() { # COMMAND..
    for _ in $(seq 400); do
        ! "$@" || return 0
        sleep 0.05
    done
    failed "this never came true: $*"
    return 1
}

# A process's state and parent, as the kernel tells them.
process() { # PID
    { read -r _ _ state parent _ < "/proc/$1/stat"; } 2> /dev/null
}

gone() { # PID
    ! process "$1" || [ "$state" = Z ]
}

# The answers of `answers_at_once`, each behind its line's number.
at_once='1 - 2 N 3 - 4 A'

# Writes lines to a command, the second in two pieces, and asks for each answer before it goes on. Names of rules do not
# count.
answers_at_once() { # COMMAND..
    rm -f "$room/to" "$room/from"
    mkfifo "$room/to" "$room/from" || exit 2
    "$@" < "$room/to" > "$room/from" 2> "$room/err" &
    exec 7> "$room/to" 8< "$room/from"
    printf 'V\t1\nB\tA' >&7
    one=$(timeout 20 sh -c 'read -r line && echo "$line"' <&8) || failed 'no answer to line 1 while the input stays open'
    printf '6\nS\nB\tA6' >&7
    two=$(timeout 20 sh -c 'read -r two && read -r three && printf "%s\n" "$two" "$three"' <&8) || failed 'no answer to lines 2 and 3 while the input stays open'
    exec 7>&-
    last=$(timeout 20 cat <&8)
    exec 8<&-
    wait "$!"
    status=$?
    # shellcheck disable=SC2086
    printf '%s\n' $at_once | paste - - > "$room/wanted"
    printf '%s\n' "$one" "$two" "$last" | cut -f1,2 | cmp -s - "$room/wanted" || failed "the answers are $one, $two, $last"
    no_err
    status_is 0
}

# Says how many failed, and ends.
done_trying() {
    echo "$me: $tried tried, $failures failures"
    [ "$failures" = 0 ]
    exit
}
