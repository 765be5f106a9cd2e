#!/bin/sh
# What the static libraries ask for from outside: memcpy and memset, and read_exports memset alone. So they link
# without a C library where these two are given.
set -eu
cd "$(dirname "$0")/../target/staticlib"
for asked in exports:memcpy:memset dump_exports:memcpy:memset move_exports:memcpy:memset loop_exports:memcpy:memset read_exports:memset; do
    name=${asked%%:*}
    [ -f "lib$name.a" ] || { echo "archives.sh: there is no lib$name.a" >&2; exit 1; }
    for word in $(nm -u "lib$name.a" | sed -n 's/^ *U //p' | sort -u); do
        case ":${asked#*:}:" in
            *":$word:"*) ;;
            *) echo "archives.sh: lib$name.a asks for $word" >&2; exit 1 ;;
        esac
    done
done
echo "static libraries: none asks for more than memcpy and memset, read_exports for no more than memset"
