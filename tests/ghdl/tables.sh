#!/bin/sh
# Writes GHDL's tables of the nine values into a file: tables.sh OUTFILE
set -eu
[ $# -eq 1 ] || { echo "usage: tables.sh OUTFILE" >&2; exit 2; }
here=$(cd "$(dirname "$0")" && pwd)
work=$(mktemp -d)
trap 'rm -rf "$work"' EXIT
ghdl -a --std=93 --workdir="$work" "$here/tables.vhd"
ghdl -e --std=93 --workdir="$work" tables
ghdl -r --std=93 --workdir="$work" tables >"$work/lines"
cp "$work/lines" "$1"
