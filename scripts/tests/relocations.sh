#!/usr/bin/env bash
# Builds one program (samples/programs/kinds) in many ways: by GCC and clang, at -O0, -O2 and -Os, for both code models, with code that may
# stand anywhere and each model of thread-local data, with and without relaxation. Each is linked with rvld and run; where GNU ld and ld.lld
# are there, each place that is relocated has to have the value that they give it, over their own addresses (scripts/compare/relocated_values.py).
# Usage: scripts/tests/relocations.sh [RVLD]     RVLD: the program; else $RVLD, else crates/rvld/out/rvld, built first if it is not there
set -u
script=relocations
. "$(dirname "${BASH_SOURCE[0]}")/common.sh"
begin "$@"
export PYTHONDONTWRITEBYTECODE=1
there "all programs" qemu-riscv64 || end
parts=()
for source in "$sources"/kinds/*.c; do parts+=("$(basename "${source%.c}")"); done
objects=("${parts[@]/%/.o}")

# built COMPILER OPTION..: the objects; else says so
built() {
    local part
    for part in "${parts[@]}"; do
        # shellcheck disable=SC2086
        $1 -march=rv64gc -mabi=lp64d -ffreestanding -fno-builtin -nostdlib -fcommon -fno-stack-protector -Wall "${@:2}" \
            -c -o "$part.o" "$sources/kinds/$part.c" || { say "$*: $part.c is not compiled"; return 1; }
    done
}

# linked WHAT WORD..: rvld links the objects, and what it makes runs
linked() { links ours.out "${@:2}" "${objects[@]}" && runs ours.out 42 "$sources/kinds.said" && pass || say "$*"; }

# agrees WHAT PEER WORD..: the places of our executable and of a peer's
agrees() {
    there "the values of $2" "$2" python3 || return
    "$2" "${@:3}" -Map=peer.map -o peer.out "${objects[@]}" >complaint 2>&1 || { say "$1: $2: $(head -n 1 complaint)"; return; }
    python3 "$top/scripts/compare/relocated_values.py" ours.out peer.out peer.map "${objects[@]}" >places && pass || say "$1: $2: $(tail -n 4 places | tr '\n' ' ')"
}

# tried COMPILER OPTION..: with relaxation and without
tried() {
    local what="$*"
    built "$@" -mrelax 2>/dev/null || built "$@" || return
    linked "$what"
    linked "$what" --no-relax
    linked "$what" --gc-sections --icf all
    built "$@" -mno-relax || return
    linked "$what" --no-relax
    agrees "$what" riscv64-linux-gnu-ld -static --no-relax
    agrees "$what" ld.lld -z norelro
    linked "$what" --gc-sections --icf all --no-relax --threads 64
}

compilers=()
for compiler in riscv64-linux-gnu-gcc riscv64-unknown-elf-gcc clang; do there "programs of $compiler" "$compiler" && compilers+=("$compiler"); done
for compiler in "${compilers[@]}"; do
    [ "$compiler" = clang ] && compiler="clang --target=riscv64-unknown-elf"
    for level in -O0 -O2 -Os; do
        for model in medlow medany; do tried "$compiler" $level -mcmodel=$model -fno-pic; done
    done
    tried "$compiler" -O2 -fno-pic -ffunction-sections -fdata-sections
    tried "$compiler" -O2 -fno-pic -fno-jump-tables -fno-asynchronous-unwind-tables
    for model in global-dynamic local-dynamic initial-exec local-exec; do tried "$compiler" -O2 -fpic -ftls-model=$model; done
done

# with other workers the same bytes
for threads in 1 2 3 64; do links "some$threads.out" --threads "$threads" "${objects[@]}" && same some1.out "some$threads.out" "$threads workers"; done
end
