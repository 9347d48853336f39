#!/usr/bin/env bash
# Builds programs that people know, links each with rvld, and runs it under qemu: without a system, and on picolibc, musl and glibc, Lua,
# zlib's minigzip and SQLite's shell among them. Each has to write what scripts/real/said has, which is what the same sources give on another
# machine, and so has what ld.lld (scripts/real/peer: or mold) makes of the same files. Each link is made with several options, and with 1, 2
# and 64 workers, which must give the same bytes. Then compiler drivers are called with scripts/rvld-ld as their linker; inputs that rvld
# refuses must be so by the line that docs/rules.md has; and the commands of README.md, docs/guide.md and docs/rules.md are run (commands.py).
#
# Usage: scripts/tests/real-programs.sh [PART..]     PART: free picolibc musl glibc refused commands; without any, all of them. Two have to be named:
#                     newer: programs by clang 19, and with picolibc 1.8.10, of Debian 13, which are some 200 MB to get
#                     size: the bytes of code of some programs beside a ld.lld that shortens calls, and a GNU ld (scripts/compare/code_size.py)
#   RVLD=PROGRAM      the linker; else crates/rvld/out/rvld, built first if it is not there. scripts/real/peer puts the other in its place
#   RVLD_WORDS=..     words that each of its links gets; if it is not set, -s where rvld takes no command without it
#   REAL_ONCE=1       each program is linked once, with --gc-sections: for a build of rvld that is slow, as one with checks
#   REAL_WORK=DIR     where to work, kept for the next run: packages, sources and objects are made once; else a folder that is removed
#   REAL_MIRROR=URI   a mirror of Debian's archive; else the one that apt uses here
#   LLD, GNULD        for size: ld.lld 18 or later, and GNU ld 2.41 or later for RISC-V; else those of Debian 13, taken apart in the work folder
# A line for each program whose links are all OK; else one for each link that `differs`, with how, or that rvld `refused`, with its line.
# What is skipped is named with the reason.
# The status is 0 where all are OK.
set -u
script=real-programs
. "$(dirname "${BASH_SOURCE[0]}")/common.sh"
. "$(dirname "${BASH_SOURCE[0]}")/links.sh"

# ------------------------------------------------------------------------------------------------------------------------ links

# made NAME RUN KNOWN WORD..: links the files among the words with the other linker and with rvld; what both make, run by the function RUN, has to
# write what the file KNOWN of scripts/real/said has. Each link of rvld's counts; where all are OK there is one line
made() {
    local name=$1 run=$2 known=$said/$3 short=${1// /-} before=$failed links=0 beside=", as ld.lld's" options
    shift 3
    if ! command -v ld.lld >/dev/null 2>&1; then
        beside=
    elif ! timeout 300 "$sources/peer" -o "$short.peer" "$@" >told 2>&1; then
        beside=
        skip "$name beside ld.lld" "it does not link it: $(first_line told)"
    elif ! as_known "$run" "$short.peer" "$known"; then
        beside=
        skip "$name beside ld.lld" "as it links it $how"
    fi
    for options in "${trials[@]}"; do
        if linked "$name${options:+ $options}" "$short.rvld" "$options" "$@"; then
            if as_known "$run" "$short.rvld" "$known"; then links=$((links + 1)); else differs "$name${options:+ $options}" "$how"; fi
        elif [ "$options" = "${trials[0]}" ]; then
            return # what can't be linked at first is not tried with other options
        fi
    done
    for options in "${workers[@]}"; do
        linked "$name --threads $options" "$short.$options" "--threads $options" "$@" || return
        if cmp -s "$short.1" "$short.$options"; then
            links=$((links + 1))
        else
            differs "$name --threads $options" "its bytes are not those of --threads 1"
        fi
    done
    if [ "$has_map" = 1 ]; then
        linked "$name --Map" "$short.rvld" "--gc-sections --Map $short.map" "$@" || return
        if mapped "$short.rvld" "$short.map"; then links=$((links + 1)); else differs "$name --Map" "$how"; fi
    fi
    passed=$((passed + links))
    [ $failed != "$before" ] || tell "$name: OK ($links links$beside)"
}

# mapped EXECUTABLE MAP: whether the map is one, and has the names and values of the executable's symbol table; else `how` tells
mapped() {
    how="its map does not begin as one"
    [ "$(head -n 1 "$2")" = "rvld map 1" ] || return 1
    command -v riscv64-linux-gnu-nm >/dev/null 2>&1 || return 0
    how="its map and its symbol table differ"
    [ -n "$rvld_words" ] || cmp -s <(awk '$1 == "symbol" { print $2, $3 }' "$2" | sort) <(riscv64-linux-gnu-nm "$1" | awk '{ print $1, $3 }' | sort)
}

# --------------------------------------------------------------------------------------------------------------- freestanding

part_free() {
    local common="-O2 -Wall -Wextra -ffreestanding -ffunction-sections -fdata-sections -march=rv64gc -mabi=lp64d"
    local cxx="-std=c++17 -fno-exceptions -fno-rtti -fno-threadsafe-statics" clang="clang --target=riscv64-unknown-elf -mcmodel=medany -fno-pic" name cc
    if there "cells by clang" clang; then
        # shellcheck disable=SC2086
        if { for name in start machine; do $clang $common -c -o "$name-clang.o" "$sources/$name.c" || break; done &&
            $clang $common $cxx -c -o cells-clang.o "$sources/cells.cpp"; } >told 2>&1; then
            made "cells by clang" run_words cells start-clang.o cells-clang.o
            ! there "cells by clang on a machine" qemu-system-riscv64 python3 ||
                made "cells by clang on a machine" run_machine cells -e machine machine-clang.o start-clang.o cells-clang.o
            driven "cells by the driver clang" cells clang --target=riscv64-unknown-elf -nostdlib --ld-path=drivers/ld start-clang.o cells-clang.o
        else
            skip "cells by clang" "it is not compiled: $(first_line told)"
        fi
    fi
    for cc in riscv64-linux-gnu riscv64-unknown-elf; do
        there "cells by $cc-g++" $cc-gcc $cc-g++ || continue
        # shellcheck disable=SC2086
        { $cc-gcc $common -mcmodel=medany -fno-pie -c -o start-gcc.o "$sources/start.c" &&
            $cc-g++ $common -mcmodel=medany -fno-pie $cxx -c -o cells-gcc.o "$sources/cells.cpp"; } >told 2>&1 ||
            { skip "cells by $cc-g++" "it is not compiled: $(first_line told)"; continue; }
        made "cells by $cc-g++" run_words cells start-gcc.o cells-gcc.o
        driven "cells by the driver $cc-g++" cells $cc-g++ -nostdlib -static -B drivers start-gcc.o cells-gcc.o
        # the start file is position-dependent code, the program is not
        # shellcheck disable=SC2086
        $cc-g++ $common -fPIE $cxx -c -o cells-pie.o "$sources/cells.cpp" && made "cells by $cc-g++ -fPIE" run_words cells start-gcc.o cells-pie.o
    done
}

# -------------------------------------------------------------------------------------------------------------------- picolibc

part_picolibc() {
    local cc=riscv64-unknown-elf-gcc name options level folder include objects libraries known
    there picolibc $cc riscv64-unknown-elf-ar || return
    # the folder of its libraries is in the words that the driver would give to its linker
    folder=$($cc --specs=picolibc.specs -### start.o 2>&1 | tr ' ' '\n' | sed -n 's/^-L\(.*picolibc.*[^.]\)$/\1/p' | head -n 1)
    [ -e "${folder:-.}/libc.a" ] || { skip picolibc "it is not installed"; return; }
    include=$(dirname "$folder")/include
    if [ -n "${REAL_ONCE:-}" ]; then
        # most of it is debug data
        mkdir -p pico && cp "$folder"/lib[cm].a pico && riscv64-unknown-elf-strip -g pico/libc.a || return
        folder=pico
    fi
    libraries=("$folder/libm.a" "$folder/libc.a" "$($cc -print-libgcc-file-name)")
    for level in "${levels[@]}"; do
        options="--specs=picolibc.specs -$level -Wall -mcmodel=medany -ffunction-sections -fdata-sections"
        for name in start machine syscalls hello formats memory locals; do
            # shellcheck disable=SC2086
            $cc $options -c -o "pico-$name-$level.o" "$sources/$name.c" >told 2>&1 ||
                { skip "picolibc, $name -$level" "it is not compiled: $(first_line told)"; return; }
        done
        for name in hello formats memory locals; do
            objects=("pico-start-$level.o" "pico-syscalls-$level.o" "pico-$name-$level.o")
            known=$name
            [ ! -e "$said/$name.picolibc" ] || known=$name.picolibc # it writes fewer digits than others
            made "picolibc $name -$level" run_words "$known" "${objects[@]}" "${libraries[@]}"
            [ "$level" = Os ] || ! there "picolibc $name on a machine" qemu-system-riscv64 python3 ||
                made "picolibc $name on a machine" run_machine "$known" -e machine "pico-machine-$level.o" "${objects[@]}" "${libraries[@]}"
            [ "$level" = Os ] || driven "picolibc $name by the driver" "$known" $cc -nostdlib -B drivers "${objects[@]}" -L "$folder" \
                -Wl,--start-group -lm -lc -lgcc -Wl,--end-group
        done
    done
    there "picolibc hello by clang" clang || return
    for name in start syscalls hello; do
        clang --target=riscv64-unknown-elf -march=rv64gc -mabi=lp64d -mcmodel=medany -fno-pic -O2 -isystem "$include" -c -o "pico-$name-clang.o" "$sources/$name.c" \
            >told 2>&1 || { skip "picolibc hello by clang" "it is not compiled: $(first_line told)"; return; }
    done
    driven "picolibc hello by the driver clang" hello clang --target=riscv64-unknown-elf -nostdlib --ld-path=drivers/ld \
        pico-start-clang.o pico-syscalls-clang.o pico-hello-clang.o -L "$folder" -lc "$($cc -print-libgcc-file-name)"
}

# ------------------------------------------------------------------------------------------------------------------------ musl

# cc_musl OUT SOURCE OPTION..
cc_musl() {
    local out=$1 source=$2
    shift 2
    riscv64-linux-gnu-gcc -nostdinc -isystem "$musl_include" -isystem "$(riscv64-linux-gnu-gcc -print-file-name=include)" \
        -fno-pie -ffunction-sections -fdata-sections "$@" -c -o "$out" "$source"
}

compile_lua() {
    local file
    mkdir -p lua
    for file in src/lua/src/*.c; do
        [ "$(basename "$file")" = luac.c ] || cc_musl "lua/$(basename "$file" .c).o" "$file" -O2 -DLUA_USE_POSIX || return 1
    done
}

compile_zlib() {
    local file
    mkdir -p zlib
    for file in src/zlib/*.c; do cc_musl "zlib/$(basename "$file" .c).o" "$file" -O2 -DHAVE_UNISTD_H || return 1; done
    cc_musl minigzip.o src/zlib/test/minigzip.c -O2 -DHAVE_UNISTD_H -I src/zlib || return 1
    rm -f zlib/libz.a
    riscv64-linux-gnu-ar rcs zlib/libz.a zlib/*.o
}

# SQLite's two large sources are made from its small ones by its own Makefile, with tools of this machine
make_sqlite() { mkdir -p src/sqlite/made && cd src/sqlite/made && ../configure --disable-tcl --disable-readline && make sqlite3.c shell.c; }

compile_sqlite() {
    local file
    (make_sqlite) || return 1
    mkdir -p sqlite
    for file in sqlite3 shell; do
        cc_musl "sqlite/$file.o" "src/sqlite/made/$file.c" -O1 -DSQLITE_THREADSAFE=0 -DSQLITE_OMIT_LOAD_EXTENSION -I src/sqlite/made || return 1
    done
}

run_lua() { emulate "$1" "$sources/tests.lua"; }
run_sqlite() { emulate "$1" -batch <"$sources/tables.sql"; }
run_minigzip() {
    cat "$sources"/*.c "$sources"/*.sql >plain || return 1
    emulate "$1" <plain >plain.packed || return 2
    emulate "$1" -d <plain.packed | cmp - plain || return 3
    gzip -dc <plain.packed | cmp - plain || return 4
    echo "unpacked by itself and by gzip"
}

# musl_made NAME RUN KNOWN FILE..: a program on musl of these files
musl_made() {
    local name=$1 run=$2 known=$3
    shift 3
    made "$name" "$run" "$known" "$musl/crt1.o" "$musl/crti.o" "$@" "$musl/libc.a" "$(riscv64-linux-gnu-gcc -print-libgcc-file-name)" "$musl/crtn.o"
}

part_musl() {
    local name
    find_musl || return
    for name in hello formats memory locals threads; do
        cc_musl "musl-$name.o" "$sources/$name.c" -O2 >told 2>&1 || { skip "musl $name" "it is not compiled: $(first_line told)"; continue; }
        musl_made "musl $name" run_words $name "musl-$name.o"
        driven "musl $name by the driver" $name riscv64-linux-gnu-gcc -static -nostdlib -B drivers \
            "$musl/crt1.o" "$musl/crti.o" "musl-$name.o" -L "$musl" -lc -lgcc "$musl/crtn.o"
    done
    if ! once lua-source get_source lua5.4 lua; then
        skip "musl lua" "no source: $(tail -n 1 lua-source.log)"
    elif ! once lua-objects compile_lua; then
        skip "musl lua" "it is not compiled: $(tail -n 1 lua-objects.log)"
    else
        musl_made "musl lua" run_lua tests lua/*.o
    fi
    if ! once zlib-source get_source zlib zlib; then
        skip "musl minigzip" "no source: $(tail -n 1 zlib-source.log)"
    elif ! once zlib-objects compile_zlib; then
        skip "musl minigzip" "it is not compiled: $(tail -n 1 zlib-objects.log)"
    else
        musl_made "musl minigzip" run_minigzip minigzip zlib/libz.a minigzip.o
    fi
    there "musl sqlite" tclsh make cc || return
    if ! once sqlite-source get_source sqlite3 sqlite; then
        skip "musl sqlite" "no source: $(tail -n 1 sqlite-source.log)"
    elif ! once sqlite-objects compile_sqlite; then
        skip "musl sqlite" "it is not compiled: $(tail -n 1 sqlite-objects.log)"
    else
        musl_made "musl sqlite" run_sqlite tables sqlite/*.o
    fi
}

# ----------------------------------------------------------------------------------------------------------------------- glibc

# glibc_made NAME KNOWN FILE..: a static program on glibc of these files
glibc_made() {
    local name=$1 known=$2 words
    glibc_words "${@:3}"
    made "$name" run_words "$known" "${words[@]}"
}

part_glibc() {
    local cc=riscv64-linux-gnu-gcc name options
    there glibc $cc riscv64-linux-gnu-ar riscv64-linux-gnu-as riscv64-linux-gnu-ld || return
    once glibc eval '(mend_glibc)' || { skip glibc "its libc.a is not there: $(tail -n 1 glibc.log)"; return; }
    for name in hello formats memory locals threads; do
        for options in "${ways[@]}"; do
            # shellcheck disable=SC2086
            $cc $options -ffunction-sections -fdata-sections -c -o glibc.o "$sources/$name.c" >told 2>&1 ||
                { skip "glibc $name $options" "it is not compiled: $(first_line told)"; continue; }
            glibc_made "glibc $name $options" $name glibc.o
        done
        driven "glibc $name by the driver" $name $cc -static -B drivers -O2 "$sources/$name.c" -L glibc -lm
    done
    there "glibc streams" riscv64-linux-gnu-g++ || return
    if riscv64-linux-gnu-g++ -O2 -std=c++17 -c -o streams.o "$sources/streams.cpp" >told 2>&1; then
        glibc_made "glibc streams" streams streams.o "$(riscv64-linux-gnu-g++ -print-file-name=libstdc++.a)"
        driven "glibc streams by the driver" streams riscv64-linux-gnu-g++ -static -B drivers streams.o -L glibc
    else
        skip "glibc streams" "it is not compiled: $(first_line told)"
    fi
    [ -n "${REAL_ONCE:-}" ] || { own_rules; newer_glibc; }
}

# Programs on glibc 2.41, C++ with the libstdc++.a of GCC 14, whose tables of exceptions have 15,000 pairs of ULEB128 relocations
newer_glibc() {
    local newer newer_gcc name first last
    find_newer "programs on glibc 2.41" && there "programs on glibc 2.41" riscv64-linux-gnu-as riscv64-linux-gnu-g++ || return
    first=("$newer/crt1.o" "$newer/crti.o" "$newer_gcc/crtbeginT.o")
    last=("$newer/libc.a" "$newer_gcc/libgcc.a" "$newer_gcc/libgcc_eh.a" "$newer_gcc/crtend.o" "$newer/crtn.o")
    for name in hello formats memory locals threads streams; do
        riscv64-linux-gnu-gcc -O2 -c -o "$name.o" "$sources/$name".c* >told 2>&1 || { skip "glibc 2.41 $name" "it is not compiled: $(first_line told)"; continue; }
        driven "glibc 2.41 $name by rvld-ld" $name "$top/scripts/rvld-ld" "${first[@]}" "$name.o" "$newer_gcc/libstdc++.a" "$newer/libm.a" "${last[@]}"
    done
    [ -f streams.o ] || return
    # its memcpy is chosen when the program starts, which rvld refuses: this one calls one of those that it chooses among
    echo '.globl memcpy; .type memcpy, @function; memcpy: tail __memcpy_generic' | riscv64-linux-gnu-as -o memcpy.o - || return
    made "glibc 2.41 streams" run_words streams "${first[@]}" streams.o memcpy.o "$newer_gcc/libstdc++.a" "$newer/libm.a" "${last[@]}"
}

# zlib's own configure and Makefile, which call rvld through gcc
own_rules() {
    local what="zlib on glibc by its own rules"
    there "$what" make apt-get dpkg || return
    once apt make_lists || { skip "$what" "no lists of Debian 13: $(tail -n 1 apt.log)"; return; }
    once zlib-source get_source zlib zlib || { skip "$what" "no source: $(tail -n 1 zlib-source.log)"; return; }
    rm -rf own && cp -r src/zlib own || return
    if ! (cd own && export CHOST=riscv64-linux-gnu CC="riscv64-linux-gnu-gcc -B $work/drivers -static -L $work/glibc" CFLAGS="-O2 -fdata-sections" &&
        ./configure --static && make static) >told 2>&1; then
        refuses "$what" "$(grep -m 1 -e '^rvld' -e '[Ee]rror' told)"
    elif [ "$(cd own && emulate ./example 2>&1 | tail -n 1)" = "inflate with dictionary: hello, hello!" ]; then
        ok "$what"
    else
        differs "$what" "its example does not end as it should"
    fi
}

# --------------------------------------------------------------------------------------------------------------------- refused

# alike FILE..: the lines with folders of names, and the numbers that differ from one build of a library to the next, left out
alike() { sed -E 's|file=[^ ]*/|file=|; s/(section|place)=[0-9]+/\1=N/g; s/^[ |`]+//' "$@"; }

# refused_so NAME LINE WORD..: rvld must refuse the words with a line like LINE, and docs/rules.md must have one like it
refused_so() {
    local name=$1 line=$2 status
    shift 2
    timeout "$limit" "$rvld" -o refused.out "$@" >told 2>&1
    status=$?
    if [ "$status" != 1 ] || [ "$(alike told)" != "$(alike <<<"$line")" ]; then
        differs "$name" "status $status, $(first_line told)"
    elif ! alike "$top/docs/rules.md" | grep -qF "$(alike <<<"$line")"; then
        differs "$name" "docs/rules.md does not have $(first_line told)"
    else
        pass
        tell "$name: OK, refused: $(sed 's|file=[^ ]*/|file=|' told)"
    fi
}

part_refused() {
    local cc=riscv64-linux-gnu-gcc crt newer newer_gcc
    [ "$is_rvld" = 1 ] || { skip "what is refused" "it is another linker that stands in rvld's place"; return; }
    there "what is refused" $cc || return
    # GCC places anchors from which it reaches several variables, also past their section's end
    if { $cc -O2 -fno-pie -c -o anchors.o "$sources/anchors.c" && $cc -O2 -fno-pie -fno-section-anchors -c -o no-anchors.o "$sources/anchors.c"; } >told 2>&1; then
        refused_so "section anchors" "rvld: F09 BadSymbol file=anchors.o section=N place=N name= other=0" anchors.o
        ! linked "no section anchors" anchors "" no-anchors.o || ok "no section anchors"
    else
        skip "section anchors" "they are not compiled: $(first_line told)"
    fi
    $cc -O2 -c -o hello.o "$sources/hello.c" >told 2>&1 || { skip "what is refused of glibc" "it is not compiled: $(first_line told)"; return; }
    crt=("$($cc -print-file-name=crt1.o)" "$($cc -print-file-name=crti.o)" "$($cc -print-file-name=crtn.o)" "$($cc -print-libgcc-file-name)"
        "$($cc -print-file-name=libgcc_eh.a)")
    if once glibc eval '(mend_glibc)'; then
        refused_so "glibc 2.36 as it is" "rvld: F09 BadSymbol file=libc.a(libc-tls.o) section=N place=N name= other=0" "${crt[@]}" hello.o \
            "$($cc -print-file-name=libc.a)"
    else
        skip "what is refused of glibc" "its libc.a is not there: $(tail -n 1 glibc.log)"
    fi
    find_newer "what is refused of Debian 13" || return
    refused_so "glibc 2.41 as it is" "rvld: F17 Ifunc file=libc.a(memcpy.o) section=N place=N name= other=0" "$newer/crt1.o" "$newer/crti.o" hello.o \
        "$newer/libc.a" "${crt[@]:3}" "$newer/crtn.o"
    (cd newer && riscv64-linux-gnu-ar x "$work/$newer/libc.a" memcpy.o)
    refused_so "memcpy of glibc 2.41" "rvld: F17 Ifunc file=memcpy.o section=N place=N name= other=0" -e memcpy newer/memcpy.o
}

# --------------------------------------------------------------------------------------------- newer tools, and sizes of code

get_picolibc() { apt_here download picolibc-riscv64-unknown-elf && dpkg -x picolibc-riscv64-unknown-elf_*.deb picolibc && rm -f picolibc-riscv64-unknown-elf_*.deb; }

# sized NAME WORD..: a row of the table, and what differs
sized() {
    local name=$1 status
    shift
    timeout "$limit" "$top/scripts/compare/code_size.py" "$name" "$rvld" "$LLD" "${GNULD:--}" "$work/sizes" --gc-sections "$@" >told 2>&1
    status=$?
    cat told
    if [ "$status" = 0 ]; then pass; else differs "size of $name" "status $status"; fi
}

part_newer() {
    local name options folder words bare cxx="-std=c++17 -fno-exceptions -fno-rtti -fno-threadsafe-statics"
    find_clang "programs by clang 19" && find_musl || return
    words="-march=rv64gc -mabi=lp64d -ffunction-sections -fdata-sections"
    for options in "-O2 -fno-pic" "-Os -fpic" "-O3 -g -fno-pic"; do
        for name in hello formats memory locals threads; do
            # shellcheck disable=SC2086
            new-clang --target=riscv64-linux-gnu $words $options -nostdinc -isystem "$musl_include" \
                -isystem "$(new-clang -print-resource-dir)/include" -c -o newer.o "$sources/$name.c" >told 2>&1 ||
                { skip "musl $name by clang 19 $options" "it is not compiled: $(first_line told)"; continue; }
            musl_made "musl $name by clang 19 $options" run_words $name newer.o
        done
    done
    bare="new-clang --target=riscv64-unknown-elf $words -mcmodel=medany -ffreestanding -O2"
    # shellcheck disable=SC2086
    if { $bare -fno-pic -c -o start-newer.o "$sources/start.c" && $bare -fno-pic $cxx -c -o cells-newer.o "$sources/cells.cpp" &&
        $bare -fpic $cxx -c -o cells-pic.o "$sources/cells.cpp" &&
        $bare -fno-pic -fexperimental-relative-c++-abi-vtables $cxx -c -o cells-relative.o "$sources/cells.cpp" &&
        $bare -fpic -mtls-dialect=desc $cxx -c -o cells-desc.o "$sources/cells.cpp"; } >told 2>&1; then
        made "cells by clang 19" run_words cells start-newer.o cells-newer.o
        made "cells by clang 19, tables of distances to functions" run_words cells start-newer.o cells-relative.o
        if [ "$is_rvld" = 1 ]; then
            refused_so "thread-local data without a C library" "rvld: F22 Undefined file=cells-pic.o section=N place=N name=__tls_get_addr other=0" start-newer.o cells-pic.o
            refused_so "thread-local data by descriptors" "rvld: F12 RelocKind file=cells-desc.o section=N place=N name= other=62" start-newer.o cells-desc.o
        fi
    else
        skip "cells by clang 19" "it is not compiled: $(first_line told)"
    fi
    there "picolibc 1.8.10" riscv64-unknown-elf-gcc && newer_here "picolibc 1.8.10" picolibc || return
    folder=$(dirname "$(find "$work/picolibc" -path '*riscv64-unknown-elf/lib/libc.a')")
    for name in start syscalls hello formats memory locals; do
        riscv64-unknown-elf-gcc -isystem "$(dirname "$folder")/include" -ftls-model=local-exec -O2 -mcmodel=medany -ffunction-sections -fdata-sections \
            -c -o "newer-$name.o" "$sources/$name.c" >told 2>&1 || { skip "picolibc 1.8.10, $name" "it is not compiled: $(first_line told)"; return; }
    done
    # what atexit registers is called by way of a section that its linker script puts among the destructors
    wrap new-objcopy usr/bin/riscv64-linux-gnu-objcopy
    new-objcopy --rename-section .fini_array_onexit=.fini_array "$folder/libc.a" picolibc/mended.a >told 2>&1 ||
        { skip "picolibc 1.8.10" "its libc.a is not mended: $(first_line told)"; return; }
    for name in hello formats memory locals; do
        options=$name
        [ ! -e "$said/$name.picolibc" ] || options=$name.picolibc
        made "picolibc 1.8.10 $name" run_words "$options" newer-start.o newer-syscalls.o "newer-$name.o" "$folder/libm.a" picolibc/mended.a \
            "$(riscv64-unknown-elf-gcc -print-libgcc-file-name)"
    done
}

part_size() {
    local level name folder file clang words
    there size python3 riscv64-linux-gnu-gcc || return
    find_linkers size || return
    mkdir -p sizes
    echo "| bytes of code | rvld | ld.lld | ld.lld, files in rvld's order | GNU ld |"
    echo "|---|---|---|---|---|"
    folder=$(riscv64-unknown-elf-gcc --specs=picolibc.specs -### start.o 2>&1 | tr ' ' '\n' | sed -n 's/^-L\(.*picolibc.*[^.]\)$/\1/p' | head -n 1)
    if [ -e "${folder:-.}/libc.a" ]; then
        for level in O2 Os; do
            for name in start syscalls hello formats; do
                riscv64-unknown-elf-gcc --specs=picolibc.specs -$level -mcmodel=medany -ffunction-sections -fdata-sections -c -o "size-$name.o" "$sources/$name.c" || return
            done
            for name in hello formats; do
                sized "picolibc $name, GCC -$level" size-start.o size-syscalls.o "size-$name.o" "$folder/libm.a" "$folder/libc.a" "$(riscv64-unknown-elf-gcc -print-libgcc-file-name)"
            done
        done
    else
        skip "size of programs on picolibc" "it is not installed"
    fi
    if there "size of a program on glibc" riscv64-linux-gnu-g++ && once glibc eval '(mend_glibc)'; then
        riscv64-linux-gnu-g++ -O2 -std=c++17 -c -o streams.o "$sources/streams.cpp" || return
        glibc_words streams.o "$(riscv64-linux-gnu-g++ -print-file-name=libstdc++.a)"
        sized "glibc streams, G++ -O2" "${words[@]}"
    fi
    find_musl || return
    musl_sized() { sized "$1" "$musl/crt1.o" "$musl/crti.o" "${@:2}" "$musl/libc.a" "$(riscv64-linux-gnu-gcc -print-libgcc-file-name)" "$musl/crtn.o"; }
    cc_musl musl-formats.o "$sources/formats.c" -O2 && musl_sized "musl formats, GCC -O2" musl-formats.o
    once zlib-source get_source zlib zlib && once zlib-objects compile_zlib && musl_sized "musl minigzip, GCC -O2" minigzip.o zlib/libz.a
    if once lua-source get_source lua5.4 lua && once lua-objects compile_lua; then
        musl_sized "musl Lua, GCC -O2" lua/*.o
        if there "size of Lua by clang" clang; then
            mkdir -p lua-clang
            clang="clang --target=riscv64-linux-gnu -march=rv64gc -mabi=lp64d -mrelax -fno-pic -Os -nostdinc -isystem $musl_include -isystem $(clang -print-resource-dir)/include"
            for file in src/lua/src/*.c; do
                # shellcheck disable=SC2086
                [ "$(basename "$file")" = luac.c ] || $clang -ffunction-sections -fdata-sections -DLUA_USE_POSIX -c -o "lua-clang/$(basename "$file" .c).o" "$file" || return
            done
            musl_sized "musl Lua, clang -Os" lua-clang/*.o
        fi
    fi
    there "size of musl SQLite" tclsh make cc || return
    once sqlite-source get_source sqlite3 sqlite && once sqlite-objects compile_sqlite || return
    musl_sized "musl SQLite, GCC -O1" sqlite/*.o
    # more code than a call of 4 bytes reaches over
    mkdir -p sqlite-long
    for file in sqlite3 shell; do
        cc_musl "sqlite-long/$file.o" "src/sqlite/made/$file.c" -O0 -march=rv64g -mabi=lp64d -DSQLITE_THREADSAFE=0 -DSQLITE_OMIT_LOAD_EXTENSION -I src/sqlite/made || return
    done
    musl_sized "musl SQLite, GCC -O0 -march=rv64g" sqlite-long/*.o
}

# -------------------------------------------------------------------------------------------------------------------- commands

# followed PAGE OPTION..: the commands of a page write what it says
followed() {
    local page=$1 folder line
    folder=$(basename "$page" .md)
    shift
    rm -rf "$folder"
    mkdir "$folder"
    cp "$sources"/*.c "$sources"/*.cpp "$folder"
    ln -s "$top/scripts" "$folder/scripts"
    mkdir -p "$folder/crates/rvld/out"
    ln -s "$rvld" "$folder/crates/rvld/out/rvld"
    while IFS= read -r line; do
        case $line in
            OK:*) ok "$page, ${line#OK: }" ;;
            skipped:*) line=${line#skipped: }; skip "$page, ${line%%: *}" "${line#*: }" ;;
            *) differs "$page" "$line" ;;
        esac
    done < <(PATH=$top/scripts:$PATH python3 "$top/scripts/tests/commands.py" "$top/$page" "$work/$folder" "$@")
}

part_commands() {
    local options=()
    there commands python3 || return
    find_musl && export MUSL=$musl MUSL_INCLUDE=$musl_include
    # rvld's own lines and maps are compared where it is rvld that links, and their places where the assembler is that of Debian 12
    # (and that a file is its image in memory holds of rvld's alone)
    [ "$is_rvld" = 1 ] || options+=(--not-its-lines --without=qemu-system-riscv64)
    case $(riscv64-linux-gnu-as --version 2>/dev/null | head -n 1) in *" 2.40"*) ;; *) options+=(--places-differ) ;; esac
    [ "$has_map" = 1 ] || options+=(--without=--Map)
    [ "$has_input" = 1 ] || options+=(--without=--self-input)
    followed README.md "${options[@]}"
    followed docs/guide.md "${options[@]}"
    followed docs/rules.md --refusals "${options[@]}"
}

# ------------------------------------------------------------------------------------------------------------------------- all

keep=${REAL_WORK:-}
ready
# by how many workers each program is linked, and how it is compiled
workers=(1 2 64) levels=(O2 Os) ways=("-O2" "-O2 -fno-pie")
[ -n "$rvld_words" ] || [ -n "${REAL_ONCE:-}" ] || trials+=("-s")
[ -z "${REAL_ONCE:-}" ] || { workers=(); levels=(O2); ways=("-O2"); }
there "each program beside ld.lld" ld.lld || true
parts=("$@")
[ ${#parts[@]} -gt 0 ] || parts=(free picolibc musl glibc refused commands)
for part in "${parts[@]}"; do
    if declare -F "part_$part" >/dev/null; then "part_$part"; else tell "no part $part"; exit 2; fi
done
end
