#!/usr/bin/env bash
# Replays a trace and shows its answers: ./replay.sh --help says how it is called.
#
# The program is hc_replay_plain: the one of dist/, or one that was built here later, as tools/dist says. With --prove it is built anew
# where a crate at or below it has changed since this script proved it last: a file of its src/, specs/ or proofs/, or its line in
# crates.txt.
set -euo pipefail
shopt -s globstar nullglob dotglob lastpipe

usage="usage: ./replay.sh [--prove] [TRACE | -]

Replays a trace on a cache and prints its answers: that of the file TRACE, of standard input for -, of traces/first-with-flash.trace
where none is named. docs/FORMATS.md says what a trace is, what is answered, and what the status says. Where a line of the trace is at fault,
or the configuration is refused, that line and its right form are shown on standard error. The status is 2 also where the trace can't be
read or the command line is wrong, and 1 also where the program can't be built.

The program is the one of dist/, or one that was built here later; where code has changed since, that is said. With --prove it is built
first where it has to be, by the toolchain's rt, crate by crate, lowest first: each crate that has changed is proved, and how long that
takes is said before. Ctrl-C ends it at any time. What is proved by then stays, and the next call goes on there."

top="$(dirname -- "$(realpath -- "$0")")"
default="$top/traces/first-with-flash.trace"
name=hc_replay_plain
program="$top/crates/$name/out/$name"
kept_bytes=16777216 # so much of a trace that comes through a pipe is kept until its end
other_minutes=100   # the hundredths of a minute that a crate is taken to need where no gate has measured it
crates=()           # the crates that the program stands on, lowest first, and itself
left=()             # those of them that are still to be proved
to_do=0             # the hundredths of a minute of those that are left
over=0              # the same of those that this run has proved
begun=0             # the second at which it began to
work=""             # a folder of this run's own
log=""              # the file in it with what a build says
has_run=0           # whether that was run
declare -A line_of=() minutes_of=()

refuse() {
    printf '%s\n' "$1" >&2
    exit 2
}

# Makes the trace that is named standard input, as - is already.
open_trace() {
    [ "$1" != - ] || return 0
    [ ! -d "$1" ] || refuse "replay.sh: '$1' is a folder, and no trace"
    [ -e "$1" ] || refuse "replay.sh: there is no trace '$1'"
    { exec < "$1"; } 2> /dev/null || refuse "replay.sh: the trace '$1' can't be read"
}

# Reads crates.txt, whose lines are NAME: LIBRARY .. with comments from # on.
read_crates() {
    local row name
    while read -r row || [ -n "$row" ]; do
        row="${row%%#*}"
        read -r name _ <<< "${row/:/ : }" || true
        [ -z "$name" ] || line_of[$name]="${row/:/ : }"
    done < "$top/crates.txt"
}

# Reads the minutes of processor that the gate measured for each crate's proof, in hundredths.
read_minutes() {
    local name minutes
    while read -r name minutes; do
        case "$name" in "" | "#"*) continue ;; esac
        minutes_of[$name]=$((10#${minutes/./}))
    done < "$top/.ci/proof-minutes"
}

# Adds a crate to `crates` behind those that it stands on. A library that crates.txt doesn't list is the toolchain's.
add_crate() {
    local words word line="${line_of[$1]:-}"
    [ -n "$line" ] || return 0
    [[ " ${crates[*]} " != *" $1 "* ]] || return 0
    read -ra words <<< "${line//,/ }"
    for word in "${words[@]:1}"; do
        add_crate "$word"
    done
    crates+=("$1")
}

# The file that says with which line of crates.txt a crate was proved last, and by its time, when.
mark_of() {
    printf '%s' "$top/crates/$1/out/replay.mark"
}

# Whether a crate itself has changed since it was proved last. (A folder is newer where a file was taken out.)
has_changed() {
    local file mark
    mark="$(mark_of "$1")"
    [ -f "$mark" ] && [ "$(< "$mark")" = "${line_of[$1]}" ] || return 0
    for file in "$top/crates/$1"/{src,specs,proofs}/**; do
        [[ ! "$file" -nt "$mark" ]] || return 0
    done
    return 1
}

# Whether a crate stands on one of `left`.
stands_on_left() {
    local word
    for word in ${line_of[$1]//,/ }; do
        [[ " ${left[*]} " != *" $word "* ]] || return 0
    done
    return 1
}

# Puts the crates that are to be proved into `left`.
find_left() {
    local crate
    for crate in "${crates[@]}"; do
        if has_changed "$crate" || stands_on_left "$crate"; then
            left+=("$crate")
        fi
    done
    [ -x "$program" ] || [[ " ${left[*]} " == *" $name "* ]] || left+=("$name")
}

# Takes the program that there is, and says where code has changed since it was built.
take_program() {
    local taken
    if ! taken="$("$top/tools/dist" --take "$name")"; then
        echo "replay.sh: there is no $name, since $taken: ./replay.sh --prove builds it" >&2
        exit 1
    fi
    program="${taken%%$'\n'*}"
    [ "$program" = "$taken" ] || echo "replay.sh: ${taken#*$'\n'}" >&2
}

# Prints the sum of the minutes of these crates, in hundredths.
minutes() {
    local crate sum=0
    for crate in "$@"; do
        sum=$((sum + ${minutes_of[$crate]:-$other_minutes}))
    done
    printf '%s' "$sum"
}

# Passes what a command says to the log line by line, and each second calls the words with the seconds that it has taken.
watch() {
    local line="" part since="$SECONDS"
    "$@" 0
    while true; do
        if IFS= read -r -t 1 part; then
            line+="$part"
            printf '%s\n' "$line" >> "$log"
            case "$line" in
                "rt: waiting for "* | *" waiting for it, "*) printf '%s\n' "$line" >&2 ;;
                "rt: running "*) has_run=1 ;;
            esac
            line=""
        elif [ $? -gt 128 ]; then
            line+="$part" # a second has passed
            "$@" $((SECONDS - since))
        else
            break
        fi
    done
    [ ! -t 2 ] || printf '\r\e[K' >&2
}

# Tells which crate is being proved, on a terminal also for how long, and how many minutes are left: those of processor that the
# gate measured, at the pace so far, to which five minutes that took as long on the clock are added.
tell_crate() {
    local at=1 minutes_left how_long="a minute"
    while [ "${crates[at - 1]}" != "$1" ]; do at=$((at + 1)); done
    minutes_left=$((to_do * (SECONDS - begun - $2 + 300) / (60 * over + 30000) - $2 / 60))
    [ "$minutes_left" -le 1 ] || how_long="some $minutes_left minutes"
    if [ -t 2 ]; then
        printf '\r\e[KProving %s, crate %d of %d: %d:%02d, %s left' "$1" "$at" "${#crates[@]}" $(($2 / 60)) $(($2 % 60)) "$how_long" >&2
    elif [ "$2" = 0 ]; then
        printf 'Proving %s, crate %d of %d: %s left\n' "$1" "$at" "${#crates[@]}" "$how_long" >&2
    fi
}

# Builds a crate, which proves it, and marks it as built.
build_crate() {
    local begin mark
    begin="$(date +%s.%N)"
    if [ "$1" = "$name" ]; then
        # (it is run on an empty trace, which is a fault, so that its status says nothing)
        { (cd "$top/crates/$1" && exec rt run < /dev/null 2>&1) || true; } | watch tell_crate "$1"
        [ "$has_run" = 1 ] || return 1
    else
        (cd "$top/crates/$1" && exec rt lib < /dev/null 2>&1) | watch tell_crate "$1" || return 1
    fi
    # (what was edited during the build is newer than the mark)
    mark="$(mark_of "$1")"
    printf '%s' "${line_of[$1]}" > "$mark"
    touch -d "@$begin" "$mark"
}

# Builds the crates of `left`, or shows the end of the log.
build() {
    local crate kept
    begun="$SECONDS"
    to_do="$(minutes "${left[@]}")"
    echo "replay.sh: proves $name and what it stands on: ${#left[@]} of ${#crates[@]} crates are left, which took the gate" \
        "$(((to_do + 99) / 100)) minutes of processor. Ctrl-C ends it: what is proved by then stays." >&2
    for crate in "${left[@]}"; do
        : > "$log"
        if ! build_crate "$crate"; then
            kept="$(mktemp)"
            cp "$log" "$kept"
            tail -n 40 "$log" >&2
            echo "replay.sh: $crate could not be built: the log is $kept" >&2
            exit 1
        fi
        to_do=$((to_do - $(minutes "$crate")))
        over=$((over + $(minutes "$crate")))
    done
}

# Proves what has changed, and takes the program that comes of it.
prove() {
    read_crates
    read_minutes
    add_crate "$name"
    find_left
    [ ${#left[@]} -gt 0 ] || return 0
    if ! command -v rt > /dev/null; then
        echo "replay.sh: to prove takes the toolchain, whose rt isn't here" >&2
        exit 1
    fi
    log="$work/log"
    trap '[ ! -t 2 ] || echo >&2; exit 130' INT
    build
    trap - INT
}

# Says on standard error which line of the trace in this file is at fault, and why, where its last answer is this.
explain() {
    case "$2" in
        "fault line "*) "$top/traces/explain-fault" "$1" "${2##* }" ;;
        "refused "*) "$top/traces/explain-fault" "$1" ;;
    esac | sed 's/^/replay.sh: /' >&2
    echo 'replay.sh: docs/FORMATS.md has a section "When it says fault"' >&2
}

# The same, where the program answers it.
explain_file() {
    local last
    last="$("$program" < "$1" 2> /dev/null | tail -n 1)" || true
    explain "$1" "$last"
}

# Replays standard input, which is this file.
replay_file() {
    local status=0
    "$program" || status=$?
    [ "$status" != 1 ] || explain_file "$1"
    exit "$status"
}

# Replays standard input, which is a pipe: its first bytes are kept, to show a faulty line of.
replay_pipe() {
    local status=0 keep keeper copy="$work/trace"
    exec {keep}> >(head -c "$kept_bytes" > "$copy"; cat > /dev/null)
    keeper=$!
    tee "/dev/fd/$keep" | { exec {keep}>&-; "$program"; } || status="${PIPESTATUS[1]}"
    exec {keep}>&-
    wait "$keeper" || true
    if [ "$status" = 1 ] && [ "$(wc -c < "$copy")" -lt "$kept_bytes" ]; then
        explain_file "$copy"
    elif [ "$status" = 1 ]; then
        echo "replay.sh: the faulty line isn't shown, since only the first $kept_bytes bytes of a pipe are kept: name a file" >&2
    fi
    exit "$status"
}

proves=0
case "${1:-}" in
    -h | --help)
        printf '%s\n' "$usage"
        exit
        ;;
    --prove)
        proves=1
        shift
        ;;
    -?*) refuse "$usage" ;;
esac
[ $# -le 1 ] || refuse "$usage"
trace="${1-$default}"
open_trace "$trace"
work="$(mktemp -d)"
trap 'rm -rf "$work"' EXIT
if [ "$proves" = 1 ]; then prove; else take_program; fi
if [ -f "$trace" ]; then
    replay_file "$trace"
elif [ -t 0 ]; then
    "$program"
else
    replay_pipe
fi
