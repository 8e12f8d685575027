#!/usr/bin/env bash
# words.sh PROGRAM: words, lines and exit statuses of the program as a shell sees them. It works in a folder of its own under
# the current one, and ends with status 1 where one is other than it should be.
program=$(realpath "$1")
tests=$(cd "$(dirname "$0")" && pwd)
example=$tests/../../examples/first_snapshot
room=$(mktemp -d -p .) && cd "$room" || exit 1
trap 'cd .. && rm -rf "$room"' EXIT
rows=0 lost=0

# ends STATUS TEXT WORD..: the program ends with the status and writes the text, on whatever is standard input.
ends() {
    local status=$1 text=$2 ended
    shift 2
    rows=$((rows + 1))
    "$program" "$@" >said
    ended=$?
    if [ "$ended" -ne "$status" ] || ! cmp -s said <(printf '%b' "$text"); then
        lost=1
        printf 'retro %s: status %d and not %d, and it said:\n' "$*" "$ended" "$status"
        head -n 9 said
    fi
}

# ends_silent OUTPUT STATUS WORD..: the same, where this output, a file or `&-` for none, takes nothing.
ends_silent() {
    local output=$1 status=$2 ended
    shift 2
    rows=$((rows + 1))
    if [ "$output" = '&-' ]; then "$program" "$@" >&-; else "$program" "$@" >"$output"; fi
    ended=$?
    if [ "$ended" -ne "$status" ]; then
        lost=1
        printf 'retro %s into %s: status %d and not %d\n' "$*" "$output" "$ended" "$status"
    fi
}

ends_unheard() { ends_silent /dev/full "$@"; }
ends_unopened() { ends_silent '&-' "$@"; }

new='version 1\npages 16\ncapacity 64\noldest 1\nnewest 0\ncaptures 0\n'
exec </dev/null

# words that are none of the good ones, and numbers outside their ranges
words='retro: bad words\n'
ends 2 "$words"
for word in walk RUN help -h --help show format $'\xff'; do ends 2 "$words" "$word"; done
ends 2 "$words" -- run
ends 2 "$words" run ''
ends 2 "$words" run d d
ends 2 "$words" run -d
ends 2 "$words" show ''
ends 2 "$words" show -d
ends 2 "$words" show d d
ends 2 "$words" SHOW d
ends 2 "$words" format d
ends 2 "$words" format d 16
ends 2 "$words" format '' 16 64
ends 2 "$words" format d +16 64
ends 2 "$words" format d 16 -64
ends 2 "$words" format d 16 ''
ends 2 "$words" format d '1 6' 64
ends 2 "$words" format d 00000000016 64
ends 2 "$words" format d 0000000000016 64
ends 2 "$words" format d 16 64 64
ends 2 "$words" run d 1 2 3 4 5 6 7 8 9
ends 2 "$words" format 1 1
ends 2 "$words" format d 15 +64
sizes='retro: bad sizes\n'
ends 9 "$sizes" format d 15 64
ends 9 "$sizes" format d 65537 64
ends 9 "$sizes" format d 16 63
ends 9 "$sizes" format d 16 1048577
ends 9 "$sizes" format d 9999999999 64

# the greatest store, whole and with a byte less; and a folder whose name is as long as the system's paths let it be
ends 0 'formatted 65536 1048576\n' format great 65536 1048576
ends 0 'version 1\npages 65536\ncapacity 1048576\noldest 1\nnewest 0\ncaptures 0\n' show great
truncate -s -1 great/pagelog
ends 7 'retro: not a store, pagelog at 1073741823\n' show great
ends 0 'formatted 16 64\n' format great 16 64
ends 0 "$new" show great
rm -r great
long=$(printf "%0250d/" 1 2 3 4 5 6 7 8 9 10 11 12 13 14 15)
mkdir -p "$long"
ends 0 'formatted 16 64\n' format "$long/d" 16 64
ends 0 "$new" show "$long/d"

# a store that is not there, made, shown, run, and run again; a store in memory is another
ends 6 'retro: disk fault on cabinet 1\n' show d
ends 6 'retro: disk fault on cabinet 1\n' run d
ends 0 'formatted 16 64\n' format d 0000000016 64
ends 0 "$new" show d
ends 0 'journal\n' run d
ends 0 "$(cat "$example.stdout")\n" run d <"$example"
again='phase 1\nsession a\nitem 1\nrows 1\n1,x\njournal\n1 a 1 looked 1\n1 a 1 unlooked\n'
ends 0 "$again" run d <<<$'SESSION a\nSELECT AS OF 1 * FROM t'
shown='version 1\npages 16\ncapacity 64\noldest 1\nnewest 1\ncaptures 1\n'
ends 0 "$shown" show d
apart='phase 1\nsession a\nitem 1\nrefused 20 UnknownName\ncommitted\njournal\n1 a 1 done\n'
ends 0 "$apart" run <<<$'SESSION a\nSELECT * FROM t\nCOMMIT'

# what a run left is there for the next, its numbers and drops too
ends 0 'formatted 16 64\n' format e 16 64
ends 0 "$(cat "$example.stdout")\n" run e <"$example"
next='phase 1\nsession a\nitem 1\nrows 2\n1,x\n2,y\nok 1\ncommitted as 2\nitem 2\nrows 1\n1,x\nitem 3\nrows 1\n3\n'
next+='item 4\ndropped below 2\njournal\n1 a 1 done as 2\n1 a 2 looked 1\n1 a 2 unlooked\n1 a 3 looked 2\n1 a 3 unlooked\n'
ends 0 "$next"'1 a 4 dropped below 2\n' run e <<'END'
SESSION a
SELECT * FROM t
INSERT INTO t VALUES (3,'z')
COMMIT WITH SNAPSHOT
SELECT AS OF 1 * FROM t
SELECT AS OF 2 COUNT(*) FROM t
DROP SNAPSHOTS BELOW 2
END
last='phase 1\nsession b\nitem 1\nrefused 10 Dropped 1 2\nitem 2\nrows 1\n6\njournal\n1 b 1 refused 10\n1 b 2 looked 2\n1 b 2 unlooked\n'
ends 0 "$last" run e <<<$'SESSION b\nSELECT AS OF 1 * FROM t\nSELECT AS OF 2 SUM(a) FROM t'
ends 0 'version 1\npages 16\ncapacity 64\noldest 2\nnewest 2\ncaptures 1\n' show e

# two runs, a drop, a bad script and an empty one over one store, beside one that is not there
ends 0 'formatted 64 64\n' format f 64 64
made='phase 1\nsession a\nitem 1\nok\nok 1\ncommitted as 1\nitem 2\nok 1\ncommitted as 2\nitem 3\nrows 1\n1\n'
ends 0 "$made"'journal\n1 a 1 done as 1\n1 a 2 done as 2\n1 a 3 looked 1\n1 a 3 unlooked\n' run f <<'END'
SESSION a
CREATE TABLE t(a INT)
INSERT INTO t VALUES (1)
COMMIT WITH SNAPSHOT 'one'
INSERT INTO t VALUES (2)
COMMIT WITH SNAPSHOT 'two'
SELECT AS OF 1 * FROM t
END
third='phase 1\nsession a\nitem 1\nrows 2\n1\n2\nok 1\ncommitted as 3\nitem 2\nrows 1\n1\nitem 3\nrows 3\n1\n2\n3\n'
third+='journal\n1 a 1 done as 3\n1 a 2 looked 1\n1 a 2 unlooked\n1 a 3 looked 3\n1 a 3 unlooked\n'
ends 0 "$third" run f <<'END'
SESSION a
SELECT * FROM t
INSERT INTO t VALUES (3)
COMMIT WITH SNAPSHOT 'three'
SELECT AS OF 1 * FROM t
SELECT AS OF 3 * FROM t
END
cut='phase 1\nsession a\nitem 1\ndropped below 3\nitem 2\nrefused 10 Dropped 2 3\nitem 3\nrows 3\n1\n2\n3\n'
cut+='journal\n1 a 1 dropped below 3\n1 a 2 refused 10\n1 a 3 looked 3\n1 a 3 unlooked\n'
ends 0 "$cut" run f <<<$'SESSION a\nDROP SNAPSHOTS BELOW 3\nSELECT AS OF 2 * FROM t\nSELECT AS OF 3 * FROM t'
ends 3 'retro: bad script at line 1\n' run f <<<SELECT
ends 6 'retro: disk fault on cabinet 1\n' run nosuch <<<'SESSION a'
ends 0 'journal\n' run f
ends 0 'version 1\npages 64\ncapacity 64\noldest 3\nnewest 3\ncaptures 2\n' show f

# bad scripts, each behind the number of its bad line; and lines as long as a script and as a line may be
while read -r line script; do
    ends 3 "retro: bad script at line $line\n" run < <(printf '%b' "$script")
done <"$tests/bad_scripts"
ends 3 'retro: bad script at line 2\n' run < <(printf 'SESSION a\n' && head -c 4194294 /dev/zero | tr '\0' '(')

# one past each limit: bytes, phases, sessions of a phase, and items, begun in each of their ways
bad_at() { ends 3 "retro: bad script at line $1\n" run; }
bad_at 4194296 < <(printf 'SESSION a\n' && head -c 4194295 /dev/zero | tr '\0' '\n')
bad_at 4097 < <(printf 'SESSION a\n' && yes PHASE | head -n 4096)
bad_at 17 < <(printf 'SESSION %s\n' a b c d e f g h i j k l m n o p q)
for last in COMMIT 'CREATE TABLE t(v INT)' 'SELECT * FROM rql_x' 'SELECT AS OF 1 * FROM t' 'DROP SNAPSHOTS BELOW 1'; do
    bad_at 65538 < <(printf 'SESSION a\n' && yes COMMIT | head -n 65536 && printf '%s\n' "$last" COMMIT)
done

refused='phase 1\nsession a\nitem 1\nrefused 19 Syntax 0\ncommitted\njournal\n1 a 1 done\n'
ends 0 "$refused" run < <(printf 'SESSION a\n' && head -c 4096 /dev/zero | tr '\0' '(' && printf '\nCOMMIT')

# a bad script comes before a store that is not there, and changes none that is
ends 3 'retro: bad script at line 1\n' run <<<'INSERT INTO t VALUES (1)'
ends 3 'retro: bad script at line 1\n' run nosuch <<<'INSERT INTO t VALUES (1)'
ends 3 'retro: bad script at line 4\n' run d <<<$'SESSION a\nDROP SNAPSHOTS BELOW 1\nDELETE FROM t'
ends 0 "$shown" show d

# a script that cannot be read, or is not there, before all that comes of a store; what asks for no run reads none
unreadable='retro: source fault\n'
ends 4 "$unreadable" run <.
ends 4 "$unreadable" run d <.
ends 4 "$unreadable" run <&-
ends 4 "$unreadable" run d <&-
ends 4 "$unreadable" run nosuch <.
ends 2 "$words" run d d <.
ends 9 "$sizes" format d 15 64 <&-
ends 0 'formatted 16 64\n' format g 16 64 <&-
ends 0 "$new" show g <&-
ends 0 "$shown" show d <.

# what is no folder of a store: a file, and one in which a file is missing or is a folder; a folder within a folder
cabinet='retro: disk fault on cabinet 1\n'
echo text >file
for word in show run; do ends 6 "$cabinet" "$word" file; done
ends 6 "$cabinet" format file 16 64
ends 6 "$cabinet" format file/d 16 64
if [ "$(cat file)" != text ]; then echo 'a file in place of a folder was changed'; lost=1; fi
for name in log pages pagelog maplog; do
    cp -r g "no_$name" && rm "no_$name/$name"
    for word in show run; do ends 6 "$cabinet" "$word" "no_$name"; done
    mkdir "no_$name/$name"
    for word in show run; do ends 6 "$cabinet" "$word" "no_$name"; done
    ends 6 "$cabinet" format "no_$name" 16 64
done
rm -r no_maplog/maplog
ends 0 'formatted 16 64\n' format no_maplog 16 64
ends 0 "$new" show no_maplog
ends 0 'formatted 16 64\n' format within/another/h 16 64
ends 0 "$new" show within/another/h

# files that another user may not write, and those that he may
if [ "$(id -u)" -eq 0 ] && type setpriv >/dev/null 2>&1 &&
    setpriv --reuid=65534 --regid=65534 --clear-groups test -x "$program"; then
    printf '#!/bin/sh\nexec setpriv --reuid=65534 --regid=65534 --clear-groups "%s" "$@"\n' "$program" >another
    chmod 755 . another && ours=$program program=./another
    ends 6 "$cabinet" run d <"$example"
    ends 6 "$cabinet" format d 16 64
    ends 6 "$cabinet" format j 16 64
    chmod 666 g/*
    ends 0 "$(cat "$example.stdout")\n" run g <"$example"
    program=$ours
    ends 0 "$shown" show d
    ends 0 "$shown" show g
else
    echo 'files of another user are left out: they need root, setpriv, and a program that others may run'
fi

# a store that is none: behind what the words and the script are refused by, and before an output that takes nothing
cp -r g hurt && printf '\0' | dd of=hurt/log conv=notrunc status=none
hurt='retro: not a store, log at 0\n'
ends 7 "$hurt" show hurt
ends 7 "$hurt" run hurt <"$example"
ends 3 'retro: bad script at line 1\n' run hurt <<<SELECT
ends 4 "$unreadable" run hurt <.
ends_unheard 7 show hurt
ends_unopened 7 run hurt
ends 0 'formatted 16 64\n' format hurt 16 64
ends 0 "$new" show hurt

# an output that takes nothing hides no other status, and what stands in front of the text was done
for silent in ends_unheard ends_unopened; do
    "$silent" 2 walk
    "$silent" 9 format d 15 64
    "$silent" 4 run <.
    "$silent" 3 run <<<SELECT
    "$silent" 6 show nosuch
    "$silent" 5 show d
    rm -r g
    "$silent" 5 format g 16 64
    ends 0 "$new" show g
    "$silent" 5 run g <"$example"
    ends 0 "$shown" show g
    ends 0 "$again" run g <<<$'SESSION a\nSELECT AS OF 1 * FROM t'
done

# texts that nobody takes, of which one was committed; and a store made anew
ends_unheard 5 run
ends_unopened 5 run
ends_unheard 5 run d <<<$'SESSION a\nDELETE FROM t\nCOMMIT WITH SNAPSHOT'
unheard='phase 1\nsession a\nitem 1\nrows 0\njournal\n1 a 1 looked 2\n1 a 1 unlooked\n'
ends 0 "$unheard" run d <<<$'SESSION a\nSELECT AS OF 2 * FROM t'
ends 0 "$again" run d <<<$'SESSION a\nSELECT AS OF 1 * FROM t'
ends 0 'version 1\npages 16\ncapacity 64\noldest 1\nnewest 2\ncaptures 1\n' show d
ends 0 'formatted 16 64\n' format d 16 64
ends 0 "$new" show d

# loads, by their numbers
ends 2 "$words" load
ends 2 "$words" load 1
ends 2 "$words" load 1 1 1
ends 2 "$words" load -1 1
ends 2 "$words" load +1 1
ends 2 "$words" load 1 ''
ends 2 "$words" load 12345678901 1
ends 9 "$sizes" load 65537 1
ends 9 "$sizes" load 1 2001
ends 9 "$sizes" load 1 0
ends 9 "$sizes" load 9999999999 1
one='load 1 1\ncommitted 7\nsnapshots 2\ncaptures 4\nsums 63 29 70 78\npast 63\n'
ends 0 "$one" load 1 1
ends 0 "$one" load 0001 01
ends 0 'load 0 1\ncommitted 7\nsnapshots 2\ncaptures 4\nsums 81 14 35 39\npast 81\n' load 0 1
ends 0 'load 65536 1\ncommitted 7\nsnapshots 2\ncaptures 4\nsums 98 98 98 98\npast 98\n' load 65536 1
many='load 1 200\ncommitted 1002\nsnapshots 201\ncaptures 800\nsums 10548 10484 9607 9734\npast 1085687\n'
ends 0 "$many" load 1 200
most='load 1 2000\ncommitted 10002\nsnapshots 2001\ncaptures 8000\nsums 99720 98335 100396 99911\npast 101192934\n'
ends 0 "$most" load 1 2000
ends_unheard 5 load 1 1

# a memory that has no room for a log
printf '#!/bin/sh\nulimit -v 30000\nexec "%s" run\n' "$program" >cramped
chmod 755 cramped
program=./cramped
ends 8 'retro: out of memory\n'

printf '%d words and statuses\n' "$rows"
exit "$lost"
