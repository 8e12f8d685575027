# Builds the program, and counts the instructions of a script, read from standard input: a figure that says the same whatever else the machine does. It needs valgrind.
cd "$(dirname "$0")/../crates/retro" && rt run -- run < stdin > /dev/null 2>&1 || exit 1
script=$(mktemp)
trap 'rm -f "$script"' EXIT

count() {
    cat > "$script"
    valgrind --tool=callgrind --callgrind-out-file=/dev/null out/retro run < "$script" 2>&1 > /dev/null | awk -v what="$1" '/refs/ { print what ": " $NF }'
}
