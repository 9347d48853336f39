# shellcheck shell=bash disable=SC2154
# What the scripts of scripts/tests get of Debian's archive, into their work folder alone: read with `.`, after common.sh. `work` is that folder, where they stand.

# once MARK COMMAND..: runs the command in the work folder unless it succeeded before; its output goes to MARK.log
once() {
    local mark=$1
    shift
    [ -e "$mark.done" ] && return 0
    if "$@" >"$mark.log" 2>&1; then : >"$mark.done"; else return 1; fi
}

# apt_here COMMAND..: apt-get with a list of sources, lists and a cache of its own, in the folder $apt; nothing is installed
apt=apt architecture=riscv64
apt_here() {
    apt-get -q -o "Dir::Etc::sourcelist=$work/$apt/list.sources" -o Dir::Etc::sourceparts=- -o "Dir::State::lists=$work/$apt/lists" \
        -o "Dir::Cache=$work/$apt/cache" -o "APT::Architecture=$architecture" -o "APT::Architectures::=$architecture" -o Acquire::Languages=none \
        -o "APT::Sandbox::User=$(id -un)" -o Debug::NoLocking=1 -o Acquire::Retries=1 -o Acquire::http::Timeout=20 -o Acquire::https::Timeout=20 "$@"
}

# the lists of Debian 13, and Debian 12's of sources, from the mirror that apt uses for Debian here
make_lists() {
    local mirror=${REAL_MIRROR:-} keys=/usr/share/keyrings/debian-archive-keyring.gpg kind suite
    # shellcheck disable=SC2016
    [ -n "$mirror" ] || mirror=$(apt-get indextargets --format '$(CREATED_BY) $(SITE)' 'Origin: Debian' | sed -n 's/^Packages //p' | head -n 1)
    [ -n "$mirror" ] || { echo "no mirror of Debian is known"; return 1; }
    mkdir -p "$apt/lists/partial" "$apt/cache/archives/partial"
    for kind in "deb deb-src:trixie" deb-src:bookworm; do
        suite=${kind#*:}
        printf 'Types: %s\nURIs: %s\nSuites: %s\nComponents: main\n' "${kind%:*}" "$mirror" "$suite"
        [ ! -e $keys ] || echo "Signed-By: $keys"
        echo
    done >"$apt/list.sources"
    apt_here -o APT::Update::Error-Mode=any update
}

get_musl() { apt_here download musl-dev && dpkg -x musl-dev_*.deb musl; }

# get_source PACKAGE FOLDER: the package's own source, without Debian's changes: that of Debian 13, or of Debian 12 where the archive lacks the file
get_source() {
    local file top
    mkdir -p "src/$2"
    (cd "src/$2" && { apt_here source --download-only --tar-only "$1" || apt_here source --download-only --tar-only "$1/bookworm"; }) || return 1
    file=$(find "src/$2" -maxdepth 1 -name '*.orig.tar.*' ! -name '*.asc' | head -n 1)
    # most have one folder in which all stands
    top=$(tar -tf "$file" | sed 's|^\./||; s|/.*||' | sort -u | grep -c .)
    if [ "$top" = 1 ]; then tar -x --strip-components=1 -f "$file" -C "src/$2"; else tar -x -f "$file" -C "src/$2"; fi
}

# Debian 13's ld.lld and GNU ld for RISC-V, for this machine, with all that they are linked with
get_linkers() {
    local file
    apt_here download lld-19 libllvm19 binutils-riscv64-linux-gnu libjansson4 libsframe1 libc6 libstdc++6 libgcc-s1 libxml2 libedit2 libzstd1 zlib1g \
        libtinfo6 libffi8 libbsd0 libmd0 liblzma5 libz3-4 || return 1
    for file in *_"$architecture".deb; do dpkg -x "$file" linkers || return 1; done
    rm -f ./*_"$architecture".deb
}

# newer_here WHAT GET..: runs each get_GET once, with the lists of Debian 13 for this machine; else WHAT is skipped
newer_here() {
    local what=$1 get apt=apt-here architecture
    shift
    there "$what" apt-get dpkg || return 1
    architecture=$(dpkg --print-architecture)
    once apt-here make_lists || { skip "$what" "no lists of Debian 13: $(tail -n 1 apt-here.log)"; return 1; }
    for get; do once "get-$get" "get_$get" || { skip "$what" "no packages: $(tail -n 1 "get-$get.log")"; return 1; }; done
}

# wrap NAME PROGRAM WORD..: bin/NAME runs the program of Debian 13 with Debian 13's libraries, and with the words before its own
wrap() {
    local loader libraries
    loader=$(find "$work/linkers/usr" -name 'ld-linux*.so*' | head -n 1)
    libraries=$(dirname "$(find "$work/linkers/usr" -name 'libLLVM*.so*' -path '*-linux-gnu/*' | head -n 1)"):$work/linkers/usr/lib/llvm-19/lib
    printf '#!/bin/sh\nexec "%s" --library-path "%s" "%s" %s "$@"\n' "$loader" "$libraries" "$work/linkers/$2" "${*:3}" >"bin/$1"
    chmod +x "bin/$1"
}

# find_musl: gets the package, and sets `musl` and `musl_include`
find_musl() {
    [ -z "${musl:-}" ] || return 0
    there musl riscv64-linux-gnu-gcc riscv64-linux-gnu-ar apt-get dpkg || return
    once apt make_lists || { skip musl "no lists of Debian 13: $(tail -n 1 apt.log)"; return 1; }
    once musl get_musl || { skip musl "no package: $(tail -n 1 musl.log)"; return 1; }
    musl=$(dirname "$(find "$work/musl" -name crt1.o)") musl_include=$(dirname "$(find "$work/musl" -name stdio.h | head -n 1)")
}

# Debian 13's glibc and what its GCC 14 made, as static archives
get_newer() {
    local file
    apt_here download libc6-dev libgcc-14-dev libstdc++-14-dev || return 1
    for file in lib{c6,gcc-14,stdc++-14}-dev_*.deb; do dpkg -x "$file" newer || return 1; done
}

# find_newer WHAT: gets them, and sets `newer` and `newer_gcc`, their folders
find_newer() {
    there "$1" apt-get dpkg || return
    once apt make_lists || { skip "$1" "no lists of Debian 13: $(tail -n 1 apt.log)"; return 1; }
    once newer get_newer || { skip "$1" "no packages: $(tail -n 1 newer.log)"; return 1; }
    newer=$(dirname "$(find newer -name libc.a)") newer_gcc=$(dirname "$(find newer -name libstdc++.a)")
}

# Debian 13's clang, beside its linkers
get_clang() { apt_here download clang-19 libclang-cpp19 libclang-common-19-dev && for file in *clang*_"$architecture".deb; do dpkg -x "$file" linkers || return 1; done; }

# find_clang WHAT: gets it and the linkers, and makes bin/new-clang
find_clang() {
    newer_here "$1" linkers clang || return
    wrap new-clang usr/lib/llvm-19/bin/clang -resource-dir "$(find "$work/linkers/usr/lib/llvm-19/lib/clang" -mindepth 1 -maxdepth 1 | head -n 1)"
    new-clang --version >told 2>&1 || { skip "$1" "Debian 13's clang does not run here: $(first_line told)"; return 1; }
}

# find_linkers WHAT: sets LLD to a ld.lld that shortens calls, and GNULD, unless LLD is given
find_linkers() {
    if [ -n "${LLD:-}" ]; then
        "$LLD" --help 2>/dev/null | grep -q relax-gp || { skip "$1" "$LLD knows no --no-relax-gp"; return 1; }
        return 0
    fi
    newer_here "$1" linkers || return 1
    wrap new-lld usr/lib/llvm-19/bin/ld.lld
    new-lld --help 2>/dev/null | grep -q relax-gp || { skip "$1" "Debian 13's ld.lld does not run here"; return 1; }
    LLD=$work/bin/new-lld
    [ -z "${GNULD:-}" ] || return 0
    wrap new-ld usr/bin/riscv64-linux-gnu-ld
    if new-ld --help 2>/dev/null | grep -q relax-gp; then GNULD=$work/bin/new-ld; else skip "$1 beside GNU ld" "Debian 13's does not run here"; fi
}

# clang's own libraries and start files, of Debian 13
get_llvm() {
    local file
    apt_here download libclang-rt-19-dev libunwind-19-dev libc++-19-dev libc++abi-19-dev || return 1
    for file in lib{clang-rt,unwind,c++,c++abi}-19-dev_*.deb; do dpkg -x "$file" llvm || return 1; done
}

# find_llvm WHAT: gets them, and sets `llvm`, the folder of the libraries, and `llvm_rt`, that of the start files
find_llvm() {
    there "$1" apt-get dpkg || return
    once apt make_lists || { skip "$1" "no lists of Debian 13: $(tail -n 1 apt.log)"; return 1; }
    once llvm get_llvm || { skip "$1" "no packages: $(tail -n 1 llvm.log)"; return 1; }
    llvm=$(dirname "$(find llvm -type f -name libunwind.a)") llvm_rt=$(dirname "$(find llvm -name 'clang_rt.crtbegin-riscv64.o')")
}
