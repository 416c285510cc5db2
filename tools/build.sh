# shellcheck shell=sh
# What the scripts share that prove and build; sourced by them. The script has set
#
#     root    the clone's folder, by its physical path
#     me      its own name, for what is said on standard error
#
# One lock keeps them apart, and what is built is used as it is while nothing that it was made from has changed.
# Variables of this file begin with b_.

# On standard error. Where that is no terminal, only the first line is said.
tell() { # TEXT
    if [ -t 2 ] || [ -z "${b_told:-}" ]; then echo "$me: $1" >&2; fi
    b_told=1
}

fault() { # TEXT
    echo "$me: $1" >&2
    return 2
}

# Takes the clone's lock; waits where another script has it. Two at a time would build one file over the other's, and
# `rt ci` sets each crate's out/ aside whoever uses it.
# It is flock's lock on the clone's folder. The kernel ends it with the last process that has file descriptor 9: no
# kill leaves it behind, and rt, which inherits it, keeps it where only its script is killed. The folder is always
# there, and who may not write to it can wait for it too.
lock() {
    [ "${ST25DV_LOCK:-}" != "$root" ] || return 0 # the script that started this one has it
    command -v flock > /dev/null || fault 'flock (util-linux) is missing' || return
    exec 9< "$root"
    if ! flock -n 9; then
        tell 'another run is at work in this clone; waiting for its end'
        flock 9 || fault "cannot lock $root" || return
    fi
    b_locked=1 ST25DV_LOCK=$root
    export ST25DV_LOCK
}

# Gives the lock back where this script took it.
unlock() {
    [ -n "${b_locked:-}" ] || return 0
    b_locked=
    exec 9<&-
    unset ST25DV_LOCK
}

# A crate's line of crates.txt and those of the crates below it, lowest first.
lines_of() { # CRATE
    CRATE=$1 awk '
        function visit(name,    below, count, i) {
            if (!(name in needs) || seen[name]++) return
            count = split(needs[name], below, " ")
            for (i = 1; i <= count; i++) visit(below[i])
            print line[name]
        }
        { sub(/#.*/, ""); at = index($0, ":") }
        at { split(substr($0, 1, at - 1), word, " "); line[word[1]] = $0; needs[word[1]] = substr($0, at + 1) }
        END { visit(ENVIRON["CRATE"]) }' "$root/crates.txt"
}

# The names of these crates, lowest first: the order in which rt proves them.
names_of() { # CRATE
    lines_of "$1" | sed 's/[ :].*//'
}

# A digest of all that a crate is made from, by content: times of files say little after a copy or a checkout.
sources_of() { # CRATE
    (
        cd "$root" || exit
        lines=$(lines_of "$1")
        # shellcheck disable=SC2046
        set -- $(printf '%s\n' "$lines" | sed 's|[ :].*||; s|^|crates/|')
        [ $# -gt 0 ] || exit
        {
            printf '%s\n' "$lines"
            find "$@" \( -name must-fail -o -name out \) -prune -o -type f -exec sha256sum {} + | LC_ALL=C sort
        } 2> /dev/null | sha256sum
    )
}

# Whether FILE is what was built from the sources as they are now, by this kit. Without a kit the sources decide.
is_built() { # CRATE FILE
    [ -r "$root/$2" ] && [ -r "$root/target/$1.built" ] || return
    {
        IFS= read -r b_kit
        IFS= read -r b_sources
        IFS= read -r b_file
    } < "$root/target/$1.built"
    [ "$b_file" = "$(sha256sum < "$root/$2")" ] && [ "$b_sources" = "$(sources_of "$1")" ] || return
    ! command -v rt > /dev/null || [ "$b_kit" = "$(rt version < /dev/null)" ]
}

# The time since b_began.
passed() {
    b_seconds=$(($(date +%s) - b_began))
    printf '%d:%02d' $((b_seconds / 60)) $((b_seconds % 60))
}

# Shows which crate is at work, how many are proved and the time, on one line that is written over and over. rt names a
# crate where it begins with it; those before it are proved then.
show_progress() { # LOG
    while kill -0 "$$" 2> /dev/null; do
        b_now=$(sed -n 's/^rt: chose --jobs [0-9]* for //p' "$1" 2> /dev/null | tail -n 1)
        b_proved=$(printf '%s\n' "$b_crates" | awk -v now="$b_now" '$0 == now { n = NR - 1 } END { print n + 0 }')
        printf '\r%-79.79s' "$me: proving${b_now:+ $b_now} ($b_proved of $b_count proved, $(passed))" >&2
        sleep 1
    done
}

end_progress() {
    [ -n "$b_shown" ] || return 0
    kill "$b_shown" 2> /dev/null
    printf '\r%79s\r' '' >&2
}

# Ends rt with all that it started, then this script by the same signal. What is proved stays proved.
interrupted() { # SIGNAL
    trap '' INT TERM HUP
    kill -s TERM -- "-$b_job" 2> /dev/null
    wait "$b_job"
    end_progress
    echo "$me: interrupted; what is proved so far is kept" >&2
    trap - "$1"
    kill -s "$1" "$$"
}

# Runs rt in a crate's folder and shows how far it is. It gets a process group of its own: its provers ignore the
# terminal's interrupt, and are ended by that group.
run_rt() { # LOG CRATE COMMAND
    b_log=$1
    command -v setsid > /dev/null || fault 'setsid (util-linux) is missing' || return
    : > "$b_log" || return
    b_began=$(date +%s)
    (cd "$root/crates/$2" && exec setsid rt "$3") < /dev/null > "$b_log" 2>&1 &
    b_job=$! b_shown=
    for b_signal in INT TERM HUP; do
        # shellcheck disable=SC2064
        trap "interrupted $b_signal" "$b_signal"
    done
    if [ -t 2 ]; then
        show_progress "$b_log" 9<&- &
        b_shown=$!
    fi
    wait "$b_job"
    b_status=$?
    trap - INT TERM HUP
    end_progress
    return "$b_status"
}

# The command that has a crate proved and built.
who_builds() { # CRATE
    case $1 in
    explain) echo ./bench --explain ;;
    rack_bench) echo ./bench --rack ;;
    *) echo ./bench ;;
    esac
}

# What rt leaves of a crate: an archive, or a program, which `rt run` runs once too, here on no input.
made_of() { # CRATE COMMAND
    case $2 in
    lib) echo "crates/$1/out/lib$1.a" ;;
    *) echo "crates/$1/out/$1" ;;
    esac
}

# Puts what rt made of a crate in FILE's place and notes what it was made from: no later run of rt touches it there.
take() { # CRATE FILE COMMAND KIT SOURCES
    mkdir -p "$root/${2%/*}" && cp "$root/$(made_of "$1" "$3")" "$root/$2.new" && mv "$root/$2.new" "$root/$2" &&
        printf '%s\n' "$4" "$5" "$(sha256sum < "$root/$2")" > "$root/target/$1.built.new" &&
        mv "$root/target/$1.built.new" "$root/target/$1.built" || fault "cannot write to $root/target"
}

# Proves and builds FILE. Where the sources change meanwhile, is_built sees it.
prove() { # CRATE FILE COMMAND
    command -v rt > /dev/null || fault "$2 is not built from these sources, and rt, the Rattle kit, is not in PATH" || return
    mkdir -p "$root/target" 2> /dev/null && [ -w "$root/target" ] ||
        fault "$2 is not built from these sources, and you may not write to $root; who may runs $(who_builds "$1") once" || return
    b_kit=$(rt version < /dev/null) && b_sources=$(sources_of "$1") || return
    b_crates=$(names_of "$1")
    b_count=$(printf '%s\n' "$b_crates" | wc -l)
    tell "proving and building $2, $b_count crates: minutes the first time"
    if ! run_rt "$root/target/$1.log" "$1" "$3" || [ ! -f "$root/$(made_of "$1" "$3")" ]; then
        grep -E '^rt: .*(did not build|mend these)|^(fn|struct|impl) .*: (not proved|no proof)|error\[' "$root/target/$1.log" | head -n 20 >&2
        fault "not built; target/$1.log tells why"
        return
    fi
    [ ! -t 2 ] || tell "proved and built in $(passed)"
    take "$1" "$2" "$3" "$b_kit" "$b_sources"
}

# Has FILE proved and built where it is not. The lock is then kept; where nothing is to be done it is not taken.
build() { # CRATE FILE COMMAND
    ! is_built "$1" "$2" || return 0
    lock || return
    until is_built "$1" "$2"; do
        prove "$@" || return
    done
}

# The bench program, or `explain`, which names rules, or `rack_bench`, of several tags, or another program.
build_program() { # [NAME]
    build "${1:-bench}" "target/bin/${1:-bench}" run
}

# The archives: what steps a tag, what explains a call, and a rack's calls.
build_library() {
    build capi_c target/staticlib/libcapi.a lib &&
        build capi_explain_c target/staticlib/libcapi_explain.a lib &&
        build capi_rack_c target/staticlib/libcapi_rack.a lib
}
