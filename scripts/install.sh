#!/usr/bin/env bash
# Copies rvld to PREFIX/bin, and rvld-ld with its parts to PREFIX/lib/rvld, with links to it: PREFIX/bin/rvld-ld; PREFIX/bin/ld.rvld, which `clang -fuse-ld=rvld`
# finds where PREFIX/bin is on the path; and PREFIX/lib/rvld/ld, which drivers find by `-B PREFIX/lib/rvld`. Says how large the program is, and what it needs
# where it runs.
# The program is crates/rvld/out/rvld, where the gate (.ci/run) leaves it. If it is not there, or older than a source, `rt run` builds it, over what earlier
# runs on this machine proved: nothing is proved again of a text that was.
# Usage: scripts/install.sh PREFIX
set -u
top=$(cd "$(dirname "${BASH_SOURCE[0]}")/.." && pwd)
if [ $# != 1 ] || [ -z "$1" ]; then
    echo "usage: scripts/install.sh PREFIX"
    exit 2
fi
program=$top/crates/rvld/out/rvld

# is_rvld FILE: whether it runs, and ends as rvld does without a word
is_rvld() { [ -x "$1" ] && [ "$("$1" 2>&1; echo $?)" = $'rvld: bad command\n2' ]; }

newer=$(find "$top/crates" "$top/crates.txt" -newer "$program" \( -path '*/src/*' -o -name crates.txt \) -type f 2>/dev/null | head -n 1)
if [ ! -x "$program" ] || [ -n "$newer" ]; then
    command -v rt >/dev/null 2>&1 || { echo "install: $program is not there, or older than a source, and rt, which builds it, is not there"; exit 1; }
    (cd "$top/crates/rvld" && rt run) # ends with the program's own status
fi
is_rvld "$program" || { echo "install: $program does not run as rvld"; exit 1; }

mkdir -p "$1/bin" "$1/lib/rvld" || exit 1
prefix=$(cd "$1" && pwd)
lib=$prefix/lib/rvld
# a new file in the place of the old one, which may be running
install -m 755 "$program" "$prefix/bin/.new" && mv "$prefix/bin/.new" "$prefix/bin/rvld" || exit 1
rm -rf "$lib/.parts" && mkdir "$lib/.parts" && install -m 644 "$top"/scripts/rvld_ld/*.{py,txt} "$lib/.parts" || exit 1
rm -rf "$lib/rvld_ld" && mv "$lib/.parts" "$lib/rvld_ld" || exit 1
# by the interpreter itself, and alone, what stands for it on the path left out; its parts are compiled now, since a link does not write them
python=$(python3 -c 'import sys; print(sys.executable)') || { echo "install: python3, which rvld-ld needs, is not there"; exit 1; }
{ echo "#!$python -IS" && tail -n +2 "$top/scripts/rvld-ld"; } >"$lib/.new" && chmod 755 "$lib/.new" && mv "$lib/.new" "$lib/rvld-ld" || exit 1
python3 -m compileall -q "$lib/rvld_ld" || exit 1
ln -sfn ../../bin/rvld "$lib/rvld" && ln -sfn rvld-ld "$lib/ld" || exit 1
ln -sfn ../lib/rvld/rvld-ld "$prefix/bin/rvld-ld" && ln -sfn ../lib/rvld/rvld-ld "$prefix/bin/ld.rvld" || exit 1
is_rvld "$prefix/bin/rvld" || { echo "install: $prefix/bin/rvld does not run"; exit 1; }

echo "$prefix/bin/rvld: $(wc -c <"$prefix/bin/rvld") bytes, which need:"
ldd "$prefix/bin/rvld" | sed 's/ (0x[0-9a-f]*)$//'
! command -v objdump >/dev/null 2>&1 || echo "  symbols of $(objdump -T "$prefix/bin/rvld" | grep -o 'GLIBC_[0-9.]*' | sort -uV | tail -n 1) at most"
[ "$("$lib/ld" -v)" = "$("$top/scripts/rvld-ld" -v)" ] || { echo "install: $lib/ld does not run"; exit 1; }
echo "$prefix/bin/rvld-ld, which needs $python; for gcc: -static -B $lib; for clang: -static --ld-path=$prefix/bin/rvld-ld, or -fuse-ld=rvld with $prefix/bin on the path"
