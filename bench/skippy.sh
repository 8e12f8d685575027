#!/bin/sh
# Instructions to push 1,048,576 mappings into the levels batch by batch, and those of the push that completes a segment of
# each level; to map two for each one that is forgotten, until 65,536 and 1,048,576 are kept; then, by the length of the
# history, the entries that a scan from its beginning and from its middle reads, plain and by the levels, and the
# instructions of both scans from the beginning; the entries by the number from which a skewed history of 262,144 is
# scanned; and the most bytes that are taken at once for 1,048,576 mappings, the history's own among them. It needs
# valgrind.
cd "$(dirname "$0")/../crates/skippy_bench" && rt run > /dev/null 2>&1 || exit 1

count() {
    valgrind --tool=callgrind --callgrind-out-file=/dev/null out/skippy_bench "$@" 2>&1 | awk '/refs/ { gsub(",", "", $NF); print $NF }'
}

# The instructions of such a scan: those beyond a scan of no mapping.
scan() {
    echo "$1 $2, $3: $(($(count "$1" "$2" 0 "$3") - $(count "$1" "$2" "$2" "$3"))) instructions"
}

for history in different repeated skewed; do
    echo "$history 1048576: $(count "$history" 1048576) instructions to push"
    echo "$history 262144: $(($(count "$history" 262144) - $(count "$history" 262080))) instructions for the last push"
done
for kept in 65536 1048576; do
    echo "growing $kept: $(count growing "$kept") instructions"
done
for history in different repeated skewed; do
    for length in 1024 8192 65536 262144 1048576; do
        out/skippy_bench "$history" "$length" 0
        out/skippy_bench "$history" "$length" $((length / 2))
        scan "$history" "$length" plain
        scan "$history" "$length" levels
    done
done
for start in 0 100 512 4096 32768 131072 131172 196608; do
    out/skippy_bench skewed 262144 "$start"
done
out=$(mktemp)
trap 'rm -f "$out"' EXIT
for history in different repeated; do
    valgrind --tool=massif --massif-out-file="$out" out/skippy_bench "$history" 1048576 > /dev/null 2>&1
    awk -F= -v what="$history 1048576" '/^mem_heap_B/ && $2 > most { most = $2 } END { print what ": " most " bytes at most" }' "$out"
done
