#!/bin/sh
# Instructions of the built program that reads a script of one kind of lines: of about 1 MiB in lines of 500, 1,000, 2,000 and 4,000 bytes, and of
# nearly 4 MiB in lines of 2,000. Each script is bad at its end, where it leaves a transaction open: so all of it is read, and nothing is checked or
# done. Reading is linear in the line where the four counts of a kind are alike, and linear in the script where the last is four times the third.
. "$(dirname "$0")/count.sh"

# so many bytes in lines of so many: a head, as many openings as fit, what stands inside, as many endings, and a tail
script_of() {
    printf 'SESSION a\nCREATE TABLE t(a INT)\n'
    awk -v whole="$1" -v bytes="$2" -v head="$3" -v opening="$4" -v inside="$5" -v ending="$6" -v tail="$7" 'BEGIN {
        count = int((bytes - length(head inside tail)) / length(opening ending))
        line = head
        for (i = 0; i < count; i++) line = line opening
        line = line inside
        for (i = 0; i < count; i++) line = line ending
        for (i = 0; i < int(whole / bytes); i++) print line tail
    }'
}

# a script of each kind, of so many bytes in lines of so many
kinds() {
    script_of "$1" "$2" 'SELECT ' '(' '1' ')' ' FROM t' | count "$1 bytes in lines of $2: parentheses"
    script_of "$1" "$2" 'DELETE FROM t WHERE ' 'NOT ' 'a = 1' '' '' | count "$1 bytes in lines of $2: NOT"
    script_of "$1" "$2" 'DELETE FROM t WHERE ' '' 'a = 1' ' OR a = 1' '' | count "$1 bytes in lines of $2: OR"
    script_of "$1" "$2" 'SELECT ' '' '1' ' - -1' ' FROM t' | count "$1 bytes in lines of $2: differences"
    script_of "$1" "$2" 'SELECT ' '' 'a' ', a' ' FROM t' | count "$1 bytes in lines of $2: outputs"
}

script_of 0 1 '' '' '' '' '' | count 'empty'
for bytes in 500 1000 2000 4000; do
    kinds 1000000 "$bytes"
done
kinds 4000000 2000
