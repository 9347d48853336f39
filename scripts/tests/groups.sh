#!/usr/bin/env bash
# Links a program in C++ whose files share templates and inline functions, so that most have the same COMDAT groups; runs it; and compares
# what is kept with what ld.lld keeps. Each function has a mark, a text in a section of its own, by which it is seen in an executable.
# Usage: scripts/tests/groups.sh [RVLD]     RVLD: the program; else $RVLD, else crates/rvld/out/rvld, built first if it is not there
set -u
script=groups
. "$(dirname "${BASH_SOURCE[0]}")/common.sh"
begin "$@"

# marks EXECUTABLE: those that it has, in order
marks() { grep -ao 'mark:[a-z_]*;' "$1" | sort; }

# sizes EXECUTABLE: name, type and size of each section that is in memory
sizes() { riscv64-linux-gnu-readelf -SW "$1" | sed -n 's/^ *\[ *[0-9]*\] //p' | awk '$7 ~ /A/ { print $1, $2, $5 }' | sort; }

# agrees OUT PEER WHAT: the same marks, each once, and sections of the same sizes
agrees() {
    local twice
    twice=$(marks "$1" | uniq -d | tr '\n' ' ')
    [ -z "$twice" ] || { say "$3: more than once: $twice"; return; }
    diff <(marks "$1") <(marks "$2") >differences || { say "$3: marks of $1 and $2: $(grep '^[<>]' differences | tr '\n' ' ')"; return; }
    diff <(sizes "$1") <(sizes "$2") >differences || { say "$3: sections of $1 and $2: $(grep '^[<>]' differences | tr '\n' ' ')"; return; }
    pass
}

there "all programs" clang riscv64-linux-gnu-readelf qemu-riscv64 || end
objects=()
for source in "$sources"/templates/*.cc "$sources"/templates/*.s; do
    object=$(basename "${source%.*}").o
    options=()
    # every sixth file has one section for all its functions, but for those of its groups
    [ $((${#objects[@]} % 6)) = 2 ] || options=(-ffunction-sections -fdata-sections)
    # nothing that only rvld or only ld.lld takes out: calls keep their bytes, and there are no records for unwinding
    compile_cxx "$object" "$source" -mno-relax -fno-asynchronous-unwind-tables "${options[@]}" || { say "$source is not compiled"; end; }
    compile_cxx "relaxed-$object" "$source" "${options[@]}" || { say "$source is not compiled with relaxation"; end; }
    objects+=("$object")
done
files=()
for object in "${objects[@]}"; do [ "$object" = idle.o ] || files+=("$object"); done
[ "$(riscv64-linux-gnu-readelf -gW "${files[@]}" | grep -c 'COMDAT group section')" -gt 20 ] || say "the objects have hardly any groups"

for collected in "" --gc-sections; do
    # shellcheck disable=SC2206
    words=($collected)
    links "one$collected.out" --threads 1 "${words[@]}" "${files[@]}" && runs "one$collected.out" 235 "$sources/templates.said" && pass
    for threads in 2 4 64; do
        links "some$collected.out" --threads "$threads" "${words[@]}" "${files[@]}" && same "one$collected.out" "some$collected.out" "$threads workers"
    done
    if there "the comparison with ld.lld" ld.lld; then
        ld.lld -z nognustack "${words[@]}" -o "peer$collected.out" "${files[@]}" && agrees "one$collected.out" "peer$collected.out" "link $collected"
    fi
done

# what is idle is dropped, and only then
diff <(marks one.out) <(marks one--gc-sections.out) | grep '^<' | grep -v idle >wrong && say "dropped though asked for: $(tr '\n' ' ' <wrong)"
marks one--gc-sections.out | grep idle >wrong && say "kept though idle: $(tr '\n' ' ' <wrong)"

# orders of the files: the first copy of a group stays, so that the program does the same
for seed in $(seq 1 10); do
    mapfile -t order < <(in_chance_order "$seed" "${files[@]}")
    for collected in "" --gc-sections; do
        # shellcheck disable=SC2206
        words=($collected)
        links order.out "${words[@]}" "${order[@]}" || continue
        qemu-riscv64 ./order.out | tail -n +2 >said
        cmp -s said <(tail -n +2 "$sources/templates.said") && pass || say "order $seed $collected: it wrote '$(head -c 200 said)'"
        if there "the comparison with ld.lld" ld.lld; then
            ld.lld -z nognustack "${words[@]}" -o peer.out "${order[@]}" && agrees order.out peer.out "order $seed $collected"
        fi
    done
done

# files in an archive, each pulled by what another asks for
if there "the archive" riscv64-linux-gnu-ar; then
    rm -f parts.a
    members=()
    for object in "${files[@]}"; do [ "$object" = start.o ] || [ "$object" = order.o ] || members+=("$object"); done
    riscv64-linux-gnu-ar rcs parts.a "${members[@]}"
    links archive.out --gc-sections start.o order.o parts.a && qemu-riscv64 ./archive.out | tail -n +2 >said &&
        cmp -s said <(tail -n +2 "$sources/templates.said") && diff <(marks archive.out) <(marks one--gc-sections.out) >wrong &&
        pass || say "archive: $(head -c 200 wrong)"
fi

# a name that nothing defines, asked for by what nothing asks for
refused "rvld: F22 Undefined file=idle.o section=+([0-9]) place=+([0-9]) name=_Z7nowherel other=0" "${files[@]}" idle.o
links idle.out --gc-sections "${files[@]}" idle.o && same idle.out one--gc-sections.out "a file of which all is dropped"
end
