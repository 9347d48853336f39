#!/usr/bin/env bash
# Links each sample with the program as built, and compares status, line, bytes and permissions with what is expected.
# Then the ends that need the file system: an input that is not there, and outputs that cannot be written.
# Usage: scripts/tests/samples.sh [RVLD]     RVLD: the program; else $RVLD, else crates/rvld/out/rvld, built first if it is not there
set -u
script=samples
. "$(dirname "${BASH_SOURCE[0]}")/common.sh"
begin "$@"
samples=$top/samples/first
bad="rvld: bad command"
there "readelf" riscv64-linux-gnu-readelf && reads_them=yes || reads_them=no

while IFS=$'\t' read -r input status line; do
    [ -n "$input" ] || continue
    rm -f a.out
    cp "$samples/$input" .
    ends "$status" "$line" -s "$input" || continue
    if [ "$status" = 0 ]; then
        expected_out=$samples/${input%.o}.out
        [ -e "$expected_out" ] || expected_out=$samples/${input%.o}.whole.out
        cmp -s a.out "$expected_out" || { say "$input: the bytes of a.out differ"; continue; }
        [ -x a.out ] || { say "$input: a.out may not be run"; continue; }
        [ $reads_them = no ] || reads a.out || continue
    elif [ -e a.out ]; then
        say "$input: a.out was made"
        continue
    fi
    pass
done <"$samples/expected.whole"

# ends that the file system gives
rm -f a.out
ends 3 "rvld: cannot read missing.o" -s missing.o && pass
mkdir folder.o
ends 3 "rvld: cannot read folder.o" -s folder.o && pass
mkdir a.out
ends 3 "rvld: cannot write a.out" -s a.o && pass
rmdir a.out
ln -s nowhere/a.out a.out
ends 3 "rvld: cannot write a.out" -s a.o && pass
rm a.out
printf 'more than rvld writes%.0s' $(seq 1 1000) >a.out
chmod 644 a.out
if ends 0 "" -s a.o; then
    if cmp -s a.out "$samples/a.out" && [ -x a.out ]; then pass; else say "a.out that was there does not make way for the executable"; fi
fi

# words that are refused: none, a value that an option does not have, and a word that is no text
ends 2 "$bad" && pass
ends 2 "$bad" -s --icf some a.o && pass
ends 2 "$bad" -s $'\xff.o' && pass
end
