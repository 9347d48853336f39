#!/usr/bin/env bash
# Builds rvld, links a C program on picolibc with it, and runs that under qemu.
# Usage: scripts/first-program.sh [--unproved]     --unproved: with a program built in some minutes of which nothing is proved (scripts/unproved.sh), kept apart
# from the proved one, which takes an hour on four processors where nothing was proved before. RVLD names a program that is there
set -eu
top=$(cd "$(dirname "${BASH_SOURCE[0]}")/.." && pwd)
# (all that is needed is looked for before an hour of proofs)
lacks() { echo "first-program: $1 is not there (Debian: gcc-riscv64-unknown-elf picolibc-riscv64-unknown-elf qemu-user; rt is the toolchain's)"; exit 1; }
for tool in riscv64-unknown-elf-gcc qemu-riscv64 rt; do command -v "$tool" >/dev/null || lacks "$tool"; done
picolibc=/usr/lib/picolibc/riscv64-unknown-elf
[ -f $picolibc/lib/libc.a ] || lacks picolibc
work=$(mktemp -d)
trap 'rm -rf "$work"' EXIT
rvld=$(realpath -m "${RVLD:-$top/crates/rvld/out/rvld}")
if [ "${1:-}" = --unproved ]; then
    rvld=$work/rvld
    "$top/scripts/unproved.sh" --tested "$rvld"
elif [ ! -x "$rvld" ]; then
    echo "first-program: proving and building rvld: an hour on four processors where nothing was proved before (--unproved takes some minutes)"
    (cd "$top/crates/rvld" && rt run >/dev/null 2>&1) || true
    [ -x "$rvld" ] || { echo "first-program: rvld was not built: rt run in crates/rvld says why"; exit 1; }
fi
cd "$work"
RVLD=$rvld riscv64-unknown-elf-gcc -B "$top/scripts/drivers" -O2 -nostdlib -isystem $picolibc/include -o hello "$top"/scripts/real/{start,syscalls,hello}.c -L $picolibc/lib -lc -lgcc
qemu-riscv64 hello
