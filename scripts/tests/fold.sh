#!/usr/bin/env bash
# C++ whose templates give equal code for many types: folded (--icf all, and --icf safe) it does the same, and all is folded that ld.lld folds in the same
# mode, but for what differs in its alignment or its flags, is empty, or names data that ld.lld folds, and for `safe` what has its address taken. Functions that
# call each other or themselves in equal ways are among them. What is folded is what scripts/compare/reference_link.py folds, and a line says how much, beside ld.lld.
# Usage: scripts/tests/fold.sh [RVLD]     RVLD: the program; else $RVLD, else crates/rvld/out/rvld, built first if it is not there
set -u
script="fold"
. "$(dirname "${BASH_SOURCE[0]}")/common.sh"
begin "$@"
export PYTHONPATH=$top/scripts PYTHONDONTWRITEBYTECODE=1
there "all programs" qemu-riscv64 python3 || end
parts=(main one two output)
files=("${parts[@]/%/.o}")

# size_of EXECUTABLE: the bytes of .text
size_of() { echo $((16#$(riscv64-linux-gnu-readelf -SW "$1" | sed -n 's/^ *\[ *[0-9]*\] //p' | awk '$1 == ".text" { print $5 }'))); }

# built COMPILER OPTION..: the objects; else says so
built() {
    local part
    for part in "${parts[@]}"; do
        # shellcheck disable=SC2086
        $1 -march=rv64gc -mabi=lp64d -std=c++17 -ffreestanding -nostdlib -fno-exceptions -fno-rtti -fno-threadsafe-statics -fno-stack-protector \
            -fno-builtin -ffunction-sections -fdata-sections "${@:2}" -c -o "$part.o" "$sources/folded/$part.cc" 2>complaint ||
            { say "$*: $part.cc is not compiled: $(head -n 1 complaint)"; return 1; }
    done
}

# folded MODE TOOK WORD..: how many sections are folded by the rules (scripts/compare/reference_link.py), and which that ld.lld folds, as TOOK tells, are not
# although they have one alignment and the same flags; what has another alignment or other flags rvld leaves apart, and data too, and for `safe` what has its
# address taken
folded() {
    python3 - "$@" <<'END'
import re, sys
from compare.reference_link import Link
from elf.constants import EXECINSTR, R_ALIGN, R_RELAX
mode, took, *words = sys.argv[1:]
names = [word for word in words if not word.startswith('-')]
link = Link([(name.encode(), open(name, 'rb').read()) for name in names], b'_start', '--gc-sections' in words, mode, False)
print(len(link.kept) - len(link.leaders))
apart = link.address_taken() if mode == 'safe' else set()
number = {}
for key in link.kept:
    n, i = key
    if i < link.files[n].count:
        number.setdefault((link.files[n].shown, link.files[n].sections[i].name.decode()), key)
groups, data = [], set()                        # data that ld.lld folds, and rvld does not
for line in open(took):
    match = re.match(r'(selected|  removing identical) section (\S+):\((\S+)\)', line)
    key = match and number.get((match[2], match[3]))
    if match and match[1] == 'selected':
        groups.append([])
    if key and link.sections[key][1] & EXECINSTR and link.sections[key][3]:
        groups[-1].append(key)
    elif key:
        data.add(key)
for group in groups:
    leaders = {}
    for key in group:
        _, flags, sort, size, align = link.sections[key]
        if key in apart or any(kind not in (R_RELAX, R_ALIGN) and data & set(link.spot(key[0], index, kind, addend)[1:2])
               for _, kind, index, addend in link.relocs(key)):
            continue
        leaders.setdefault((flags, align, sort), set()).add(link.leader[key])
    for found in leaders.values():
        if len(found) > 1:
            print('apart:', ' '.join('%s:%s' % (link.files[n].shown, link.files[n].sections[i].name.decode()) for n, i in sorted(found)))
END
}

# tried COMPILER OPTION..
tried() {
    local what="$*" collected mode
    built "$@" || return
    for collected in "" --gc-sections; do
        # shellcheck disable=SC2086
        links whole.out --no-relax $collected "${files[@]}" && runs whole.out 24 "$sources/folded.said" && pass
        for mode in all safe; do tried_as "$what" $mode $collected; done
        [ "$(size_of all.out)" -lt "$(size_of whole.out)" ] && [ "$(size_of all.out)" -le "$(size_of safe.out)" ] && [ "$(size_of safe.out)" -le "$(size_of whole.out)" ] &&
            pass || say "$what $collected: it is no smaller folded, or less so with all than with safe"
    done
}

# tried_as WHAT MODE [--gc-sections]: the objects, folded in this mode
tried_as() {
    local what="$1 --icf $2 ${*:3}" mode=$2 peer
    shift 2
    links "$mode.out" --no-relax --icf "$mode" "$@" "${files[@]}" && runs "$mode.out" 24 "$sources/folded.said" && pass
    links relaxed.out --icf "$mode" "$@" "${files[@]}" && runs relaxed.out 24 "$sources/folded.said" && pass
    python3 "$top/scripts/compare/reference_link.py" --no-relax --icf "$mode" "$@" -o plain.out "${files[@]}" && same "$mode.out" plain.out "$what"
    for threads in 1 2 64; do
        links some.out --threads "$threads" --no-relax --icf "$mode" "$@" "${files[@]}" && same "$mode.out" some.out "$what $threads workers"
    done
    [[ $what == *-mno-relax* ]] && there "the comparison with ld.lld" ld.lld || return
    ld.lld "--icf=$mode" --print-icf-sections -z norelro "$@" -o peer.out "${files[@]}" >took 2>complaint || { say "$what: ld.lld: $(head -n 1 complaint)"; return; }
    runs peer.out 24 "$sources/folded.said" && pass
    folded "$mode" took "$@" "${files[@]}" >told
    peer=$(grep -c 'removing identical section .*:(\.text' took)
    # of objects without a table of the addresses that matter, as GCC's, ld.lld folds nothing safely; and GCC's code for -fpic calls by addresses that it loads
    { [ "$(head -n 1 told)" -gt 0 ] || [[ $what == *g++*-fpic*safe* ]]; } && { [ "$peer" -gt 0 ] || [[ $what == *g++*safe* ]]; } && [ "$(wc -l <told)" = 1 ] && pass ||
        say "$what: ld.lld folds $peer, rvld $(head -n 3 told | tr '\n' ' ')"
    [[ $what != *"-O2 -fno-pic -mno-relax --icf $mode " ]] || tell "$what: rvld folds $(head -n 1 told), ld.lld $peer"
}

# contained WHAT COMPILER OPTION..: what is folded of a program of C++'s library: of its own object, where all else is one stub; and that the program does the
# same on glibc
contained() {
    local what=$1 mode name
    "${@:2}" -O2 -std=c++17 -ffunction-sections -fdata-sections -mno-relax -c -o containers.o "$sources/containers.cc" 2>complaint ||
        { say "$what: containers.cc is not compiled: $(head -n 1 complaint)"; return; }
    riscv64-linux-gnu-nm -u containers.o | while read -r _ name; do echo ".globl $name; $name:"; done >stubs.s
    { echo '.globl _start; _start: call main'; cat stubs.s; echo ret; } | riscv64-linux-gnu-as -mno-relax -o stubs.o - || return
    for mode in all safe; do
        : >took
        links contained.out --no-relax --icf $mode --Map map containers.o stubs.o &&
            python3 "$top/scripts/compare/reference_link.py" --no-relax --icf $mode -o plain.out containers.o stubs.o && same contained.out plain.out "$what $mode"
        ! there "the comparison with ld.lld" ld.lld || ld.lld --icf=$mode --print-icf-sections -o peer.out containers.o stubs.o >took 2>complaint ||
            say "$what: ld.lld: $(head -n 1 complaint)"
        tell "$what --icf $mode: rvld folds $(grep -c '^folded' map), ld.lld $(grep -c 'removing identical section .*:(\.text' took)"
        RVLD=$rvld riscv64-linux-gnu-g++ -static -B "$top/scripts/drivers" -Wl,--icf=$mode,--gc-sections -o hosted.out containers.o 2>complaint &&
            runs hosted.out 0 "$sources/containers.said" && pass || say "$what $mode: $(head -n 1 complaint)"
    done
}

for compiler in "clang --target=riscv64-unknown-elf" riscv64-linux-gnu-g++ riscv64-unknown-elf-g++; do
    there "programs of ${compiler%% *}" "${compiler%% *}" || continue
    for level in -O0 -O2 -Os; do
        tried "$compiler" $level -fno-pic -mno-relax
        tried "$compiler" $level -fno-pic -mcmodel=medlow
    done
    tried "$compiler" -O2 -fpic -mno-relax
done
if there "programs of C++'s library" riscv64-linux-gnu-g++ riscv64-linux-gnu-as riscv64-linux-gnu-nm; then
    contained "containers by riscv64-linux-gnu-g++" riscv64-linux-gnu-g++
    mapfile -t include < <(riscv64-linux-gnu-g++ -E -v -x c++ /dev/null 2>&1 | sed -n '/^#include </,/^End/s/^ /-isystem/p')
    ! there "containers by clang" clang ||
        contained "containers by clang" clang --target=riscv64-linux-gnu -march=rv64gc -mabi=lp64d -nostdinc -nostdinc++ "${include[@]}" -isystem"$(clang -print-resource-dir)/include"
fi
end
