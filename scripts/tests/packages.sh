#!/usr/bin/env bash
# Builds packages that people know with rvld as the linker: Debian's source of each by its own build system, as a static program, on glibc and on musl; runs
# its own tests under qemu, and some work whose output has to be the same as that of the same objects linked by ld.lld; and compares the two programs' sizes.
#
# Usage: scripts/tests/packages.sh [NAME..]     NAME: zlib bzip2 xz zstd libpng expat lua mujs jq sqlite dash tinycc busybox; without any, all of them
#   RVLD=PROGRAM           the linker; else crates/rvld/out/rvld, built first if it is not there
#   PACKAGES_LIBC=".."     the C libraries: "glibc musl" if it is not set
#   PACKAGES_WORK=DIR      where to work, kept for the next run: sources are fetched, and what was built stays built; else a folder that is removed
#   PACKAGES_AGAIN=1       packages that were built are built again, and tested again
#   PACKAGES_LIMIT=N       seconds for each step of a package (build, tests, sample); 900 if it is not set
#   PACKAGES_TABLE=FILE    the table of docs/packages.md, written here, with what earlier runs in the same work folder came to
#   LLD=PROGRAM            ld.lld 15 or later; else that of Debian 13, taken apart in the work folder, or the one on the path
#   REAL_MIRROR=URI        a mirror of Debian's archive; else the one that apt uses here
# A line for each package and library: `OK`, with the programs that were linked and how its tests end; `refused`, with rvld's line; `differs`, with how; `failed`,
# where it isn't rvld that keeps it from being built or tried; `skipped`, with what is not there. At most two jobs run at a time, with low priority.
# The status is 0 where none is refused and none differs.
set -u
script=packages
. "$(dirname "${BASH_SOURCE[0]}")/common.sh"

# what each is called in Debian, the tools that it needs besides make and a compiler, and what has to be built before
declare -A debian=([zlib]=zlib [bzip2]=bzip2 [xz]=xz-utils [zstd]=libzstd [libpng]=libpng1.6 [expat]=expat [lua]=lua5.4 [mujs]=mujs [jq]=jq [sqlite]=sqlite3
    [dash]=dash [tinycc]=tcc [busybox]=busybox)
declare -A needs_tools=([expat]=cmake [jq]="autoreconf libtoolize" [sqlite]=tclsh) needs=([libpng]=zlib)
all=(zlib bzip2 xz zstd libpng expat lua mujs jq sqlite dash tinycc busybox)

# step NAME LIBC STEP: in the package's copy, with its output in logs/LIBC-NAME.STEP
step() {
    local name=$1 libc=$2
    (
        cd "$work/build/$libc/$name" || exit 1
        # with two dashes, since libtool keeps a `-static` to itself; `-pthread` asks for libatomic, which is the compiler's and not musl's
        [ "$libc" = glibc ] && CC="riscv64-linux-gnu-gcc --static -B $work/drivers" || CC="$work/bin/musl-gcc --static -B $work/drivers -L$(dirname "$(riscv64-linux-gnu-gcc -print-file-name=libatomic.a)")"
        export CC HOST=riscv64-linux-gnu LIBC=$libc JOBS=2 BUILDS=$work/build/$libc SOURCES=$top/scripts/real PACKAGES_LINKS=$work/links/$libc/$name
        timeout -k 10 "$limit" nice -n 10 "$top/scripts/packages/recipes.sh" "$name" "$3" </dev/null >"$work/logs/$libc-$name.$3${PACKAGES_BY:+.$PACKAGES_BY}" 2>&1
    )
}

# why LOG: the line that tells best why a step ended
why() { { grep -m 1 -E '^rvld(-ld)?: ' "$1" || grep -m 1 -E 'error:|undefined reference|not found|Error [0-9]' "$1" || tail -n 1 "$1"; } | cut -c 1-200; }

# built NAME LIBC: builds it, unless it was
built() {
    local name=$1 libc=$2 mark=$work/links/$2/$1/built log=$work/logs/$2-$1.build before
    [ ! -e "$mark" ] || [ -n "${PACKAGES_AGAIN:-}" ] || return 0
    for before in ${needs[$name]:-}; do
        [ -e "$work/links/$libc/$before/built" ] || { fetched "$before" && built "$before" "$libc"; } || { reason="skipped: $before, which it needs, is not built"; return 1; }
    done
    rm -rf "$work/build/$libc/$name" "$work/links/$libc/$name"
    mkdir -p "$work/build/$libc" "$work/links/$libc/$name" "$work/logs"
    cp -a "$work/src/$name" "$work/build/$libc/$name" || return
    if step "$name" "$libc" build; then : >"$mark"; return 0; fi
    if [ -e "$work/links/$libc/$name/refused" ]; then reason="refused: $(why "$log")"; else reason="failed: $(why "$log")"; fi
    return 1
}

fetched() { once "$1-source" get_source "${debian[$1]}" "$1"; }
version() { find "$work/src/$1" -maxdepth 1 -name '*.orig.tar.*' ! -name '*.asc' | head -n 1 | sed 's/.*_//; s/\.orig\.tar.*//'; }

# failing NAME LIBC [BY]: the names of the tests that failed
failing() { (cd "$work" && "$top/scripts/packages/recipes.sh" "$1" failed <"logs/$2-$1.tests${3:+.$3}"); }

# tested NAME LIBC: sets `tests` to how its own tests ended; 1 where the program of rvld's fails what that of ld.lld's does not
tested() {
    local name=$1 libc=$2 log=$work/logs/$2-$1.tests here there status
    step "$name" "$libc" tests
    status=$?
    case $status in
        0)
            tests="its tests pass"
            [ "$(tail -n 1 "$log")" != none ] || tests="no tests of its own"
            return 0 ;;
        124 | 137)
            tests="its tests do not end in $limit s"
            return 0 ;;
    esac
    here=$(failing "$name" "$libc")
    PACKAGES_BY=lld step "$name" "$libc" tests
    case $? in
        124 | 137)
            reason="failed: $(grep -c . <<<"$here") of its tests fail, and those of ld.lld's program do not end in $limit s"
            return 1 ;;
    esac
    there=$(failing "$name" "$libc" lld)
    tests="$(grep -c . <<<"$here") of its tests fail under qemu, the same as when ld.lld links it"
    [ -z "$here" ] || [ "$here" != "$there" ] || return 0
    reason="differs: its tests fail: $(diff <(echo "$here") <(echo "$there") | sed -n '2,4p' | tr '\n' ' ')$(why "$log")"
    return 1
}

# bytes FILE: how long a program is without symbols and debug data
bytes() { riscv64-linux-gnu-strip -s -o "$work/stripped" "$1" 2>/dev/null && wc -c <"$work/stripped"; }

# package NAME LIBC: a line, and a row of the table
package() {
    local name=$1 libc=$2 links=$work/links/$2/$1 log=$work/logs/$2-$1 reason="failed: no copy" tests count program place ours theirs beside
    rm -f "rows/$libc-$name"
    built "$name" "$libc" || { ended "$name on $libc" "$reason"; return; }
    tested "$name" "$libc" || { ended "$name on $libc" "$reason"; return; }
    count=$(find "$links" -name rvld | wc -l) beside=", output as ld.lld's"
    step "$name" "$libc" sample || { ended "$name on $libc" "differs: its sample fails: $(why "$log.sample")"; return; }
    program=$(LIBC=$libc "$top/scripts/packages/recipes.sh" "$name" program)
    # some rules link a program elsewhere, and copy it
    place=$(grep -lx "$work/build/$libc/$name/$program" "$links"/*/place || grep -l "/$(basename "$program")\$" "$links"/*/place)
    place=$(dirname "$(head -n 1 <<<"$place")")
    [ -s "$place/rvld" ] || { ended "$name on $libc" "failed: $program is not among the programs that were linked"; return; }
    if [ -s "$place/lld" ]; then
        PACKAGES_BY=lld step "$name" "$libc" sample
        cmp -s "$log.sample" "$log.sample.lld" || { ended "$name on $libc" "differs: its sample writes $(diff "$log.sample" "$log.sample.lld" | sed -n 2,3p | tr '\n' ' ')"; return; }
        theirs=$(bytes "$place/lld")
    else
        beside=", not beside ld.lld: $(cut -c 1-120 "$place/lld.said" | head -n 1)" theirs=-
    fi
    ours=$(bytes "$place/rvld")
    echo "| $name $(version "$name") | $libc | $count | $tests | $(basename "$program") | $ours | $theirs |" >"rows/$libc-$name"
    ended "$name on $libc" "OK: $count programs, $tests$beside; $(basename "$program") $ours bytes, ld.lld's $theirs"
}

ended() {
    case $2 in
        OK*) pass ;;
        refused* | differs*) failed=$((failed + 1)) ;;
        failed* | skipped*) skipped=$((skipped + 1)) ;; # not by rvld
    esac
    tell "$1: $2"
}

# a compiler on musl: Debian's own words for it, with the folder that it was taken apart in; the kernel's headers are those of the other library
make_musl() {
    local specs driver
    get_musl || return
    specs=$(find "$work/musl" -name musl-gcc.specs)
    sed -i "s| /usr/| $work/musl/usr/|g; s|-L/usr/|-L$work/musl/usr/|g; s|:/usr/|:$work/musl/usr/|g" "$specs"
    for driver in gcc g++; do
        printf '#!/bin/sh\nexec riscv64-linux-gnu-%s "$@" -specs "%s" -idirafter "%s"\n' $driver "$specs" \
            "$(dirname "$(dirname "$(readlink -f "$(riscv64-linux-gnu-gcc -print-file-name=libc.a)")")")/include" >bin/musl-$driver
    done
    chmod +x bin/musl-gcc bin/musl-g++
}

names=("$@") limit=${PACKAGES_LIMIT:-900}
[ ${#names[@]} -gt 0 ] || names=("${all[@]}")
for name in "${names[@]}"; do [ -n "${debian[$name]:-}" ] || { tell "no package $name; there are ${all[*]}"; exit 2; }; done
keep=${PACKAGES_WORK:-}
begin
. "$top/scripts/real/debian.sh"
there "all" qemu-riscv64 riscv64-linux-gnu-gcc riscv64-linux-gnu-ar riscv64-linux-gnu-strip make cc python3 apt-get dpkg nice timeout || exit 0
RVLD=$rvld
mkdir -p bin drivers logs rows
ln -sf "$top/scripts/packages/ld" drivers/ld
# the interpreter itself, and not what may stand for it on the path: configure links hundreds of programs
ln -sf "$(python3 -c 'import sys; print(sys.executable)')" bin/python3
export RVLD PACKAGES_RVLD_LD=$top/scripts/rvld-ld PATH=$work/bin:$PATH

once apt make_lists || { skip all "no lists of Debian 13: $(tail -n 1 apt.log)"; exit 0; }
# older ones link no code that may be shortened
if [ -n "${LLD:-}" ]; then
    ln -sf "$LLD" bin/ld.lld
elif newer_here "Debian 13's ld.lld" linkers; then
    wrap ld.lld usr/lib/llvm-19/bin/ld.lld
    ld.lld --version >/dev/null 2>&1 || { skip "Debian 13's ld.lld" "it does not run here"; rm -f bin/ld.lld; }
fi
libraries=()
for libc in ${PACKAGES_LIBC:-glibc musl}; do
    if [ "$libc" = musl ]; then once musl make_musl || { skip "all on musl" "no package: $(tail -n 1 musl.log)"; continue; }; fi
    libraries+=("$libc")
done

for name in "${names[@]}"; do
    # shellcheck disable=SC2086
    there "$name" ${needs_tools[$name]:-} || continue
    fetched "$name" || { skip "$name" "no source: $(tail -n 1 "$name-source.log")"; continue; }
    for libc in "${libraries[@]}"; do package "$name" "$libc"; done
done
[ -z "${PACKAGES_TABLE:-}" ] || {
    echo "| package | on | programs linked | own tests | program | bytes | ld.lld's |"
    echo "|---|---|---|---|---|---|---|"
    for name in "${all[@]}"; do cat rows/*-"$name" 2>/dev/null; done
} >"$PACKAGES_TABLE"
end
