#!/usr/bin/env bash
# run.sh [CRATE..]: tries the wrong bodies of these crates, or of all, that stand here and not on the gate: one folder a
# crate, one edit a wrong body, in the form of `crates/CRATE/must-fail`. The prover must refuse each. It puts them among
# the crate's own while it runs, so nothing else should work in the same clone. A crate takes minutes.
here=$(cd "$(dirname "$0")" && pwd)
top=$(cd "$here/../.." && pwd)
cd "$top" || exit 1
if [ $# -eq 0 ]; then mapfile -t crates < <(cd "$here" && ls -d -- */ | tr -d /); else crates=("$@"); fi
placed=()
trap 'rm -f -- "${placed[@]}"; rmdir --ignore-fail-on-non-empty crates/*/must-fail 2>/dev/null' EXIT
for crate in "${crates[@]}"; do
    mkdir -p "crates/$crate/must-fail"
    for edit in "$here/$crate"/*.edit; do
        place="crates/$crate/must-fail/${edit##*/}"
        if [ -e "$place" ]; then
            printf '%s stands on the gate too\n' "$place"
            exit 1
        fi
        cp "$edit" "$place"
        placed+=("$place")
    done
done
rt must-fail "${crates[@]}"
