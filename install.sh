#!/bin/sh
# Installs the proved library, its header, the program, its manual page and its completion.
#
#   tools/staticlib && (cd host && cargo build --release --offline --features proved --bin pfs)
#   ./install.sh PREFIX
#
# DESTDIR stands before PREFIX, as in other installations. PFS_LIB_DIR and PFS_PROGRAM name the library's folder and the
# program if they are elsewhere.
set -eu
here=$(cd "$(dirname "$0")" && pwd)
if [ $# -ne 1 ]; then
    echo "usage: ./install.sh PREFIX" >&2
    exit 2
fi
prefix=$1
to=${DESTDIR:-}$prefix
library=${PFS_LIB_DIR:-$here/target/staticlib}/libpfs.a
program=${PFS_PROGRAM:-$here/host/target/release/pfs}
for file in "$library" "$program"; do
    if [ ! -f "$file" ]; then
        echo "install.sh: $file is not there; run first:" >&2
        echo "  tools/staticlib && (cd host && cargo build --release --offline --features proved --bin pfs)" >&2
        exit 1
    fi
done

mkdir -p "$to/bin" "$to/include" "$to/lib/pkgconfig" "$to/share/man/man1" \
    "$to/share/bash-completion/completions" "$to/share/fish/vendor_completions.d"
cp "$program" "$to/bin/pfs"
cp "$here/include/pfs.h" "$to/include/pfs.h"
cp "$library" "$to/lib/libpfs.a"
version=$("$program" --version)
sed -e "s|@prefix@|$prefix|" -e "s|@version@|${version#pfs }|" "$here/include/pfs.pc.in" > "$to/lib/pkgconfig/pfs.pc"
"$program" man > "$to/share/man/man1/pfs.1"
"$program" completion bash > "$to/share/bash-completion/completions/pfs"
"$program" completion fish > "$to/share/fish/vendor_completions.d/pfs.fish"
echo "installed pfs ${version#pfs } in $to"
