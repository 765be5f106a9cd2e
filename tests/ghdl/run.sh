#!/bin/sh
# Every comparison with GHDL: run.sh [N [SEED]], by default 200 models from 1. Tables, runs and operators are both kernels';
# the proved one is libexports.a, libdump_exports.a and libread_exports.a in target/staticlib (`tools/lib exports` and so on), or in
# the folder KERNEL_LIB_DIR.
# run.sh second [N [SEED]] compares the second kernel alone.
set -eu
here=$(cd "$(dirname "$0")" && pwd)
lib=${KERNEL_LIB_DIR:-$here/../../target/staticlib}
work=$(mktemp -d)
trap 'rm -rf "$work"' EXIT
run() {
    cargo run --quiet --release --offline --manifest-path "$here/../Cargo.toml" "$@"
}
alone=
[ "${1:-}" != second ] || { alone=yes; shift; }
for name in exports dump_exports read_exports; do
    if [ -z "$alone" ] && [ ! -f "$lib/lib$name.a" ]; then
        echo "run.sh: no $lib/lib$name.a: tools/lib $name makes it" >&2
        exit 1
    fi
done
"$here/tables.sh" "$work/tables"
run --bin tables second "$work/tables"
if [ -n "$alone" ]; then
    run --bin ghdlrun "${1:-200}" "${2:-1}"
    run --bin arithmetic
else
    export KERNEL_LIB_DIR="$lib"
    run --features proved --bin tables proved "$work/tables"
    run --features dumps,bodies --bin ghdlrun "${1:-200}" "${2:-1}"
    run --features session --bin arithmetic
fi
