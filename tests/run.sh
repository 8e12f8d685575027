#!/usr/bin/env bash
# run.sh PROGRAM: the program over every case, and what a shell, the bytes of its files and a kill show of it. It works in a
# folder of its own, and ends with status 1 where anything is other than it should be.
#
# A case is a script NAME with NAME.args, the program's words, one a line, and NAME.stdout, what it has to write. With the
# word `run` alone it is run twice, in memory and over a new store; with a second word over a store of that name alone.
# NAME.store has pages and capacity of the store where they are not those of its folder, NAME.shown what `show` tells then.
tests=$(cd "$(dirname "$0")" && pwd)
program=$(realpath "$1")
room=$(mktemp -d)
trap 'rm -rf "$room"' EXIT
cd "$room" || exit 1
cases=0 runs=0 lost=0

# writes SCRIPT TEXT WORD..: for the case at hand, the program ends well with these words on the script, and writes the text.
writes() {
    local script=$1 text=$2 status
    shift 2
    runs=$((runs + 1))
    "$program" "$@" <"$script" >written
    status=$?
    if [ "$status" -ne 0 ] || ! cmp -s "$text" written; then
        lost=$((lost + 1))
        printf '%s: retro %s: status %d; what it should write <, what it writes >\n' "$case" "$*" "$status"
        diff "$text" written | head -n 9
    fi
}

# runs_well CASE PAGES CAPACITY: the case, over new stores of these sizes where it does not say others.
runs_well() {
    local case=$1 words sizes=("$2" "$3")
    cases=$((cases + 1))
    mapfile -t words <"$case.args"
    if [ -e "$case.store" ]; then read -ra sizes <"$case.store"; fi
    if [ "${words[*]}" = run ]; then
        writes "$case" "$case.stdout" run
        words+=(store)
    fi
    rm -rf store
    writes /dev/null <(printf 'formatted %d %d\n' "${sizes[@]}") format "${words[1]}" "${sizes[@]}"
    writes "$case" "$case.stdout" "${words[@]}"
    if [ -e "$case.shown" ]; then writes /dev/null "$case.shown" show "${words[1]}"; fi
}

# all_of FOLDER PAGES CAPACITY: every script of the folder.
all_of() {
    local case before=$cases
    for case in "$1"/*; do
        if [[ ${case##*/} != *.* ]]; then runs_well "$case" "$2" "$3"; fi
    done
    if [ "$cases" -eq "$before" ]; then
        lost=$((lost + 1))
        printf '%s has no case\n' "$1"
    fi
}

# beside NAME WORD..: the command ends well; it tells what it saw.
beside() {
    local name=$1
    shift
    if ! "$@"; then
        lost=$((lost + 1))
        printf '%s: it did not end well\n' "$name"
    fi
}

# Whether this can run the program as a user who may start no thread.
may_be_another() {
    [ "$(id -u)" -eq 0 ] && type setpriv prlimit >/dev/null 2>&1 &&
        setpriv --reuid=65534 --regid=65534 --clear-groups test -x "$program"
}

mkdir made
beside made.py python3 "$tests/rows/made.py" made
all_of "$tests/../examples" 64 4096
for folder in statements scripts calls refused_calls result_tables snapshots; do all_of "$tests/$folder" 64 4096; done
all_of "$tests/rows" 16 64
all_of made 16 64
printf '%d cases, %d runs\n' "$cases" "$runs"
beside words.sh "$tests/words/words.sh" "$program"
beside judge python3 "$tests/judge/run.py" --program "$program" --seeds 1 6 --edges
beside sums.py python3 "$tests/at_once/sums.py" "$program" 10
beside at_once.py python3 "$tests/at_once/at_once.py" "$program" 100
beside threads.py python3 "$tests/at_once/threads.py" "$program"
beside rest.py python3 "$tests/at_once/rest.py" "$program"
beside turns.py python3 "$tests/at_once/turns.py" "$program"
beside beside.py python3 "$tests/at_once/beside.py" "$program"
beside full.py python3 "$tests/at_once/full.py" "$program"
if may_be_another; then
    beside no_threads.py python3 "$tests/at_once/no_threads.py" "$program"
else
    printf 'no_threads.py is left out: it needs root, setpriv and prlimit, and a program that others may run\n'
fi
beside files.py python3 "$tests/files/files.py" "$program"
beside many_snapshots.py python3 "$tests/files/many_snapshots.py" "$program"
beside kill.py python3 "$tests/kill/kill.py" "$program" 50
beside "kill/at_once.py" python3 "$tests/kill/at_once.py" "$program" 50
printf '%d of them other than they should be\n' "$lost"
[ "$lost" -eq 0 ]
