#!/usr/bin/env bash
# Links programs made by an assembler and a compiler, runs them, and compares what they write and how they end.
# The program of many files is linked in twenty orders, with 1, 2, 4 and 64 workers: the workers change no byte.
# Usage: scripts/tests/programs.sh [RVLD]     RVLD: the program; else $RVLD, else crates/rvld/out/rvld, built first if it is not there
set -u
script=programs
. "$(dirname "${BASH_SOURCE[0]}")/common.sh"
begin "$@"

# made NAME STATUS OBJECT..: linked, it must run so
made() {
    links "$1.out" "${@:3}" || return
    reads "$1.out" || return
    runs "$1.out" "$2" "$sources/$1.said" && pass
}

there "all programs" riscv64-linux-gnu-readelf qemu-riscv64 || end

if there "the program in assembly" riscv64-linux-gnu-as; then
    if assemble words.o "$sources/words.s"; then
        made words 7 words.o
        tail -n 4 "$sources/words.said" >late.said
        links late.out -e late words.o && runs late.out 3 late.said && pass
    else
        say "words.s is not assembled"
    fi
fi

there "the programs in C" clang || end
for option in -mrelax -mno-relax; do
    if clang --target=riscv64-unknown-elf -march=rv64g $option -c -o words.o "$sources/words.s"; then
        made words 7 words.o
    else
        say "words.s is not assembled by clang"
    fi
done
for options in "" "-mno-relax" "-fpic" "-mcmodel=medlow" "-O0" "-O2" "-Os" "-O2 -ffunction-sections -fdata-sections" "-O3"; do
    # shellcheck disable=SC2086
    if compile squares.o "$sources/squares.c" $options; then made squares 29 squares.o; else say "squares.c is not compiled $options"; fi
done

objects=()
for source in "$sources"/many/*.c; do
    object=$(basename "${source%.c}").o
    options=()
    # every other file has a section for each function and each datum
    [ $((${#objects[@]} % 2)) = 0 ] || options=(-ffunction-sections -fdata-sections)
    compile "$object" "$source" "${options[@]}" || { say "$source is not compiled"; end; }
    objects+=("$object")
done
files=()
for object in "${objects[@]}"; do
    case $object in noted.o | again.o) ;; *) files+=("$object") ;; esac
done

for seed in $(seq 1 20); do
    mapfile -t order < <(in_chance_order "$seed" "${files[@]}")
    for threads in 1 2 4 64; do
        links "many-$threads.out" --threads "$threads" "${order[@]}" || continue
        if [ "$threads" = 1 ]; then
            runs many-1.out 86 "$sources/many.said" && pass
        else
            same many-1.out "many-$threads.out" "order $seed"
        fi
    done
done

# with what nothing asks for dropped, equal functions folded, calls as they are, and code that may stand anywhere
for words in --gc-sections "--icf all" "--gc-sections --icf all" --no-relax; do
    # shellcheck disable=SC2206
    words=($words)
    links less.out "${words[@]}" "${files[@]}" && runs less.out 86 "$sources/many.said" && pass
done
for options in "-fpic" "-O0" "-O2 -mcmodel=medlow" "-Os -mno-relax"; do
    others=()
    for object in "${files[@]}"; do
        # shellcheck disable=SC2086
        compile "other-$object" "$sources/many/${object%.o}.c" $options || say "$object is not compiled $options"
        others+=("other-$object")
    done
    links other.out "${others[@]}" && runs other.out 86 "$sources/many.said" && pass
done

# a weak name that is defined after all, and a weak definition without a strong one
sed 's/^no notes$/a notenoted/' "$sources/many.said" >noted.said
links noted.out "${files[@]}" noted.o && runs noted.out 86 noted.said && pass
weak=()
for object in "${files[@]}"; do [ "$object" = base.o ] || weak+=("$object"); done
python3 - "$sources/many.said" >weak.said <<'END'
import re, sys
for line in open(sys.argv[1]):
    print(re.sub(r'(?<= -> )\d+', lambda n: format(int(n[0]), 'b'), line).replace('whole', 'broken'), end='')
END
links weak.out "${weak[@]}" && runs weak.out 86 weak.said && pass

# an entry that nothing defines
refused "rvld: F21 NoEntry file=- section=0 place=0 name=begin other=0" -e begin "${files[@]}"

# a name defined twice, a name that nothing defines
refused "rvld: F20 Duplicate file=again.o section=0 place=+([0-9]) name=value_of other=slots.o" again.o "${files[@]}"
refused "rvld: F20 Duplicate file=slots.o section=0 place=+([0-9]) name=value_of other=again.o" "${files[@]}" again.o
without=()
for object in "${files[@]}"; do [ "$object" = leave.o ] || without+=("$object"); done
refused "rvld: F22 Undefined file=factor.o section=+([0-9]) place=+([0-9]) name=leave other=0" "${without[@]}"
end
