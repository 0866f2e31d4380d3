#!/usr/bin/env bash
# Makes the logs of `rt plant`, of which docs/proofs/testing.md has its table of wrong bodies, and prints that table.
#
#     tools/upkeep/plants.sh FOLDER [CRATE..]
#
# FOLDER gets a log CRATE.txt of each crate, or of those that are named. What was made before is kept, so that a run that was
# broken off goes on; a crate that has changed wants its log deleted first. A crate has MINUTES for its bodies (60, if the
# environment doesn't say otherwise); all crates together take many hours. The crates are copied and proved first, without
# their doc comments: `rt plant` takes those of an enum's variants for parts of their names.
set -eu
cd "$(dirname "$0")/../.."
folder=${1:?usage: tools/upkeep/plants.sh FOLDER [CRATE..]}
shift
mkdir -p "$folder"
folder=$(readlink -f "$folder")
[ $# -gt 0 ] || set -- $(sed -n 's/^\([a-z_]*\):.*/\1/p' crates.txt | grep -v -e _tests -e pungiroe)
copy=$(mktemp -d)
trap 'rm -rf "$copy"' EXIT
cp crates.txt HANDLES "$copy"
tar -c --exclude=out crates | tar -x -C "$copy"
find "$copy/crates" -name '*.rt' -exec sed -i '/^ *\/\/\//d' {} +
logs=()
for crate; do
    log=$folder/$crate.txt
    logs+=("$log")
    ! grep -qs "^plants crate=$crate " "$log" || continue
    (cd "$copy/crates/$crate" && rt plant --all --max 5000 --minutes "${MINUTES:-60}") >"$log" 2>"$folder/$crate.err" ||
        echo "no log of $crate: see $folder/$crate.err" >&2
done
tools/upkeep/count.py plants "${logs[@]}"
