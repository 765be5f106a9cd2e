#!/bin/sh
# What `make run` shows: the inverter's lines, by the proved playbench; in a copy where nothing is proved, or something has
# changed since, by a run without proof that is said to be unproved.
set -eu
top=$(cd "$(dirname "$0")/.." && pwd)
work=$(mktemp -d)
trap 'rm -rf "$work"' EXIT
copy=$work/copy
plays() { # FOLDER WORDS..
    sh "$1/tools/run" >"$work/said"
    shift
    for words; do
        grep -q "$words" "$work/said" || { cat "$work/said"; echo "run.sh: '$words' is not said" >&2; exit 1; }
    done
    grep '^[0-9]' "$work/said" | cmp - "$top/examples/inverter/expected"
}
without='by playbench without proof'
plays "$top" 'by the proved program'
mkdir -p "$copy/target/bin"
tar --exclude=target --exclude=.git --exclude='crates/*/out' -cf - -C "$top" . | tar -xf - -C "$copy"
plays "$copy" 'not proved here yet' "$without" UNPROVED
cp "$top/target/bin/playbench" "$copy/target/bin"
cp "$top/target/proved" "$copy/target"
plays "$copy" 'by the proved program'
echo >>"$copy/crates/playbench/src/main.rt"
plays "$copy" 'Something has changed' "$without" UNPROVED
echo "make run: the inverter's lines, proved and unproved"
