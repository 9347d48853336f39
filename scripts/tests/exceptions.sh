#!/usr/bin/env bash
# Builds programs that need unwind records, links each with rvld and with ld.lld by the same options, and runs both under qemu: C++ that throws in all directions, and C
# that walks its stack. Each has to write what scripts/real/said has, which is what the same sources give on another machine, and to end as it does there. The records
# of the two executables are compared (scripts/compare/frames.py): which functions have one, how long each is, and the table of them.
#
# Usage: scripts/tests/exceptions.sh [PART..]     without a part all of them
#   glibc       Debian 12's glibc and what G++ 12 makes, and the driver
#   newer       Debian 13's glibc 2.41 with the libraries of GCC 14: what G++ 12 makes, and clang 19
#   musl        Debian 13's musl with the C++ library of GCC 14, but for streams and locales, of which that library asks much of glibc, and cancelled threads
#   llvm        clang 19 with its own libraries (libc++, libunwind) and start files
#   bare        C without a C library, on the unwinder for bare metal and on that of Linux, and on a machine without a system
#   libraries   the records of all members of these libraries and of their start files: rvld reads each (library-records.py)
#   RVLD=PROGRAM      the linker; else crates/rvld/out/rvld, built first if it is not there. scripts/real/peer puts ld.lld in its place
#   LLD=PROGRAM       ld.lld 18 or later; else that of Debian 13, taken apart in the work folder
#   REAL_ONCE, REAL_WORK, REAL_MIRROR, RVLD_WORDS     as for real-programs.sh, which can have the same folder
# A line for each program whose links are all OK, with the FDEs and the bytes of their section; else one for each link that `differs`, with how, or that rvld `refused`.
# What is skipped is named with the reason. The status is 0 where all are OK.
set -u
script=exceptions
. "$(dirname "${BASH_SOURCE[0]}")/common.sh"
. "$(dirname "${BASH_SOURCE[0]}")/links.sh"

# ------------------------------------------------------------------------------------------------------------------------ links

# run_ends EXECUTABLE: ends.cpp, with each of its words
run_ends() {
    local how
    for how in nothing own-nothing uncaught own-uncaught noexcept own-noexcept destructor own-destructor thread own-thread exit ""; do
        echo "${how:-none}:"
        (emulate "$1" "$how") 2>/dev/null
        echo "it ends with $?"
    done
}

# figures LINE: what frames.py writes, in words
figures() { awk '{ split($0, of, " [|] "); split(of[1], a, " "); split(of[2], b, " "); printf "%s FDEs in %s bytes, ld.lld %s in %s", a[1], a[2], b[1], b[2] }' <<<"$1"; }

# thrown NAME RUN KNOWN WORD..: links the files among the words with rvld and with ld.lld, by each of the options. What both make, run by the function RUN, has to
# write what the file KNOWN of scripts/real/said has, and their records are compared. Each link of rvld's counts; where all are OK there is one line
thrown() {
    local name=$1 run=$2 known=$said/$3 short=${1//[ ,]/-} before=$failed links=0 options peer folded records told_of=""
    shift 3
    for options in "${trials[@]}"; do
        if ! linked "$name${options:+ $options}" "$short.rvld" "$options" "$@"; then
            [ "$options" != "${trials[0]}" ] || return
            continue
        fi
        as_known "$run" "$short.rvld" "$known" || { differs "$name${options:+ $options}" "$how"; continue; }
        links=$((links + 1))
        [ -n "$lld" ] || continue
        read -ra peer <<<"$lld ${options/--icf /--icf=}"
        if ! timeout "$limit" "${peer[@]}" -o "$short.lld" "$@" >told 2>&1; then
            skip "$name${options:+ $options} beside ld.lld" "it does not link it: $(first_line told)"
        elif ! as_known "$run" "$short.lld" "$known"; then
            skip "$name${options:+ $options} beside ld.lld" "as it links it $how"
        elif [ "$is_rvld" = 1 ] && [ "$has_python" = 1 ]; then
            case $options in *--icf*) folded=(--folded) ;; *) folded=() ;; esac
            if records=$("$top/scripts/compare/frames.py" "${folded[@]}" "$short.rvld" "$short.lld"); then
                case $options in "" | --gc-sections) told_of+="; ${options:+with $options }$(figures "$records")" ;; esac
            else
                differs "$name${options:+ $options}, records" "$(tr '\n' ';' <<<"$records" | cut -c 1-400)"
            fi
        fi
    done
    for options in 1 64; do
        linked "$name --threads $options" "$short.$options" "--threads $options" "$@" || return
    done
    if cmp -s "$short.1" "$short.64"; then links=$((links + 1)); else differs "$name --threads 64" "its bytes are not those of --threads 1"; fi
    rm -f "$short".{rvld,lld,1,64}
    passed=$((passed + links))
    [ "$failed" != "$before" ] || tell "$name: OK ($links links$told_of)"
}

# compiled FOLDER: compiles all programs into a folder, by the commands `c` and `cxx` with their options
compiled() {
    local folder=$1 name
    mkdir -p "$folder"
    "${c[@]}" -fexceptions -c -o "$folder/cleanups.o" "$sources/cleanups.c" >told 2>&1 || { skip "$folder: all programs" "cleanups.c is not compiled: $(first_line told)"; return 1; }
    for name in "${programs[@]}"; do
        rm -f "$folder/$name.o"
        "${cxx[@]}" -std=c++17 -c -o "$folder/$name.o" "$sources/$name.cpp" >told 2>&1 || skip "$folder: $name" "it is not compiled: $(grep -m 1 error: told || first_line told)"
    done
}

# of FOLDER NAME: sets `files` to the objects of a program; 1 where it was not compiled
of() {
    files=("$1/$2.o")
    case $2 in catches | cancels) files+=("$1/cleanups.o") ;; esac
    [ -e "$1/$2.o" ]
}

# each NAME FOLDER: all programs of a folder, with `first` and `last` before and after them
each() {
    local name files run
    for name in "${programs[@]}"; do
        of "$2" "$name" || continue
        run=run_words
        [ "$name" != ends ] || run=run_ends
        thrown "$1 $name" $run "$name" "${first[@]}" "${files[@]}" "${last[@]}"
    done
}

# by_driver NAME FOLDER COMMAND..: all programs of a folder, linked by a driver's command
by_driver() {
    local what=$1 folder=$2 name files
    shift 2
    for name in "${programs[@]}"; do
        # run with one word alone, it would not tell much
        [ "$name" != ends ] || continue
        of "$folder" "$name" || continue
        driven "$what $name by the driver" "$name" "$@" "${files[@]}"
    done
}

# ----------------------------------------------------------------------------------------------------------------------- parts

part_glibc() {
    local c cxx words first last level libstdcxx programs=("${all[@]}")
    there "exceptions on glibc" riscv64-linux-gnu-{gcc,g++,ar,as,ld} || return
    once glibc eval '(mend_glibc)' || { skip "exceptions on glibc" "its libc.a is not there: $(tail -n 1 glibc.log)"; return; }
    libstdcxx=$(riscv64-linux-gnu-g++ -print-file-name=libstdc++.a)
    glibc_words "$libstdcxx"
    first=("${words[@]:0:3}") last=("${words[@]:3}")
    for level in "${levels[@]}"; do
        c=(riscv64-linux-gnu-gcc "-$level") cxx=(riscv64-linux-gnu-g++ "-$level" -ffunction-sections -fdata-sections)
        compiled "glibc-$level" || return
        each "glibc -$level" "glibc-$level"
    done
    by_driver glibc glibc-O2 riscv64-linux-gnu-g++ -static -B drivers
}

# new_clang_words WHAT: sets `c` and `cxx` to clang 19 with the headers of Debian 13's C library; those of a C++ library are added by the caller
new_clang_words() {
    local common headers
    find_clang "$1" && find_newer "$1" || return
    common="--target=riscv64-linux-gnu -march=rv64gc -mabi=lp64d -fno-pic -O2 -ffunction-sections -fdata-sections -nostdinc -nostdinc++"
    # Linux's own headers are those of the compiler that is installed
    headers="-isystem $(new-clang -print-resource-dir)/include -isystem newer/usr/include/riscv64-linux-gnu -isystem newer/usr/include -idirafter /usr/riscv64-linux-gnu/include"
    read -ra c <<<"new-clang $common $headers"
    read -ra cxx <<<"new-clang $common"
    read -ra c_headers <<<"$headers"
}

part_newer() {
    local c cxx c_headers newer newer_gcc first last programs=("${all[@]}")
    find_newer "exceptions on glibc 2.41" && there "exceptions on glibc 2.41" riscv64-linux-gnu-{as,gcc,g++} || return
    # its memcpy is chosen when the program starts, which rvld refuses: this one calls one of those that it chooses among
    echo '.globl memcpy; .type memcpy, @function; memcpy: tail __memcpy_generic' | riscv64-linux-gnu-as -o memcpy.o - || return
    first=("$newer/crt1.o" "$newer/crti.o" "$newer_gcc/crtbeginT.o")
    last=(memcpy.o "$newer_gcc/libstdc++.a" "$newer/libm.a" "$newer/libc.a" "$newer_gcc/libgcc.a" "$newer_gcc/libgcc_eh.a" "$newer_gcc/crtend.o" "$newer/crtn.o")
    c=(riscv64-linux-gnu-gcc -O2) cxx=(riscv64-linux-gnu-g++ -O2 -ffunction-sections -fdata-sections)
    [ -e glibc-O2/many.o ] || compiled glibc-O2 || return
    each "glibc 2.41" glibc-O2
    new_clang_words "exceptions by clang 19" || return
    cxx+=(-isystem newer/usr/include/c++/14 -isystem newer/usr/include/riscv64-linux-gnu/c++/14 "${c_headers[@]}")
    compiled clang-gcc || return
    # without a list of records, so that the table alone leads to them
    first[2]=$newer_gcc/crtbegin.o
    each "glibc 2.41 by clang 19" clang-gcc
    by_driver "glibc 2.41 by clang 19" clang-gcc new-clang --driver-mode=g++ --target=riscv64-linux-gnu --sysroot=newer -static --ld-path=drivers/ld
}

part_musl() {
    local c cxx musl musl_include newer newer_gcc first last programs=(throws catches makes library crowd ends many)
    find_musl && find_newer "exceptions on musl" && there "exceptions on musl" riscv64-linux-gnu-{gcc,g++} || return
    c=(riscv64-linux-gnu-gcc -O2) cxx=(riscv64-linux-gnu-g++ -O2 -ffunction-sections -fdata-sections)
    [ -e glibc-O2/many.o ] || compiled glibc-O2 || return
    "${c[@]}" -fexceptions -c -o on-musl.o "$sources/on-musl.c" >told 2>&1 || { skip "exceptions on musl" "on-musl.c is not compiled: $(first_line told)"; return; }
    first=("$musl/crt1.o" "$musl/crti.o" "$newer_gcc/crtbegin.o")
    last=(on-musl.o "$newer_gcc/libstdc++.a" "$musl/libc.a" "$newer_gcc/libgcc.a" "$newer_gcc/libgcc_eh.a" "$newer_gcc/crtend.o" "$musl/crtn.o")
    each musl glibc-O2
    [ ! -e clang-gcc/many.o ] || each "musl by clang 19" clang-gcc
}

part_llvm() {
    local c cxx c_headers newer newer_gcc llvm llvm_rt first last programs=(throws catches makes library flows crowd ends many)
    find_llvm "exceptions with LLVM's libraries" && new_clang_words "exceptions with LLVM's libraries" && there "exceptions with LLVM's libraries" riscv64-linux-gnu-as || return
    cxx+=(-isystem "$(dirname "$llvm")/include/c++/v1" "${c_headers[@]}")
    compiled clang-llvm || return
    echo '.globl memcpy; .type memcpy, @function; memcpy: tail __memcpy_generic' | riscv64-linux-gnu-as -o memcpy.o - || return
    first=("$newer/crt1.o" "$newer/crti.o" "$llvm_rt/clang_rt.crtbegin-riscv64.o")
    last=(memcpy.o "$llvm"/lib{c++,c++abi,unwind}.a "$newer/libm.a" "$newer/libc.a" "$llvm_rt/libclang_rt.builtins-riscv64.a" "$llvm_rt/clang_rt.crtend-riscv64.o" "$newer/crtn.o")
    each llvm clang-llvm
    by_driver llvm clang-llvm new-clang --driver-mode=g++ --target=riscv64-linux-gnu --sysroot=newer -resource-dir "$(dirname "$(dirname "$llvm_rt")")" \
        -rtlib=compiler-rt -unwindlib=libunwind -stdlib=libc++ -static -L "$llvm" --ld-path=drivers/ld
}

part_bare() {
    local cc name libgcc start end newer newer_gcc llvm llvm_rt parts
    local common="-O2 -Wall -Wextra -ffreestanding -fno-builtin -ffunction-sections -fdata-sections -march=rv64gc -mabi=lp64d -mcmodel=medany -fexceptions"
    for cc in riscv64-unknown-elf-gcc riscv64-linux-gnu-gcc; do
        there "the unwinder without a C library, $cc" $cc || continue
        for name in start machine walks bare registers; do
            # shellcheck disable=SC2086
            $cc $common -fasynchronous-unwind-tables -fno-stack-protector -fno-pie -c -o "$cc-$name.o" "$sources/$name.c" >told 2>&1 ||
                { skip "the unwinder without a C library, $cc" "$name.c is not compiled: $(first_line told)"; continue 2; }
        done
    done
    if [ -e riscv64-unknown-elf-gcc-registers.o ]; then
        cc=riscv64-unknown-elf-gcc
        libgcc=$($cc -march=rv64gc -mabi=lp64d -mcmodel=medany -print-libgcc-file-name) start=$($cc -print-file-name=crtbegin.o) end=$($cc -print-file-name=crtend.o)
        parts=("$cc-start.o" "$cc-walks.o" "$cc-bare.o" "$libgcc")
        thrown "the list of crtbegin.o" run_words walks "$start" "${parts[@]}" "$end"
        thrown "a list of one's own" run_words walks $cc-registers.o "${parts[@]}"
        ! there "the list on a machine" qemu-system-riscv64 python3 || thrown "the list on a machine" run_machine walks -e machine "$start" $cc-machine.o "${parts[@]}" "$end"
    fi
    [ -e riscv64-linux-gnu-gcc-registers.o ] || return
    cc=riscv64-linux-gnu-gcc
    parts=("$cc-start.o" "$cc-walks.o" "$cc-bare.o")
    thrown "the table, by GCC 12" run_words walks "${parts[@]}" "$($cc -print-file-name=libgcc_eh.a)" "$($cc -print-libgcc-file-name)"
    find_newer "the unwinder of GCC 14" || return
    thrown "the table, by GCC 14" run_words walks "${parts[@]}" "$newer_gcc/libgcc_eh.a" "$newer_gcc/libgcc.a"
    find_llvm "clang's start files without a C library" || return
    # shellcheck disable=SC2086
    $cc $common -fno-pie -DNO_TABLE -c -o no-table.o "$sources/bare.c" >told 2>&1 || return
    parts=("$cc-start.o" "$cc-walks.o" no-table.o)
    thrown "the list of clang's start files" run_words walks "$llvm_rt/clang_rt.crtbegin-riscv64.o" "${parts[@]}" "$newer_gcc/libgcc_eh.a" "$newer_gcc/libgcc.a" \
        "$llvm_rt/clang_rt.crtend-riscv64.o"
}

part_libraries() {
    local folder newer newer_gcc llvm llvm_rt musl musl_include line found
    [ "$is_rvld" = 1 ] && there "the records of libraries" python3 riscv64-linux-gnu-gcc || return
    found=("$(dirname "$(riscv64-linux-gnu-gcc -print-libgcc-file-name)")" "$(dirname "$(riscv64-linux-gnu-gcc -print-file-name=libc.a)")")
    ! there "the records of libraries for bare metal" riscv64-unknown-elf-gcc || found+=("$(dirname "$(riscv64-unknown-elf-gcc -print-libgcc-file-name)")")
    ! find_newer "the records of Debian 13's libraries" || found+=("$newer" "$newer_gcc")
    ! find_llvm "the records of LLVM's libraries" || found+=("$llvm" "$llvm_rt")
    ! find_musl || found+=("$musl")
    for folder in "${found[@]}"; do
        while IFS= read -r line; do
            case $line in
                OK:*) ok "${line#OK: }" ;;
                *) differs "records of libraries" "$line" ;;
            esac
        done < <("$top/scripts/tests/library-records.py" "$rvld" "$folder"/lib{gcc,gcc_eh,stdc++,supc++,c,m,c++,c++abi,unwind,clang_rt.builtins-riscv64}.a "$folder"/*crt*.o)
    done
}

# ------------------------------------------------------------------------------------------------------------------------- all

keep=${REAL_WORK:-}
ready
ulimit -c 0
trials=("" "--gc-sections" "--icf all" "--icf safe" "--no-relax" "--gc-sections --icf all")
all=(throws catches makes library flows crowd ends many cancels) levels=(O2 Os)
[ -z "${REAL_ONCE:-}" ] || { trials=("--gc-sections"); levels=(O2); }
has_python=0 lld=
! there "the comparison of records" python3 || has_python=1
# gp is not taken for addresses, as rvld does not; libraries that objects ask for are given
! find_linkers "exceptions beside ld.lld" || lld="$LLD --no-relax-gp --eh-frame-hdr --no-dependent-libraries --strip-debug -m elf64lriscv"
parts=("$@")
[ ${#parts[@]} -gt 0 ] || parts=(glibc newer musl llvm bare libraries)
for part in "${parts[@]}"; do
    if declare -F "part_$part" >/dev/null; then "part_$part"; else tell "no part $part"; exit 2; fi
done
end
