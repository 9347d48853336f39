#!/usr/bin/env bash
# shellcheck disable=SC2016,SC2317
# How scripts/tests/packages.sh builds, tests and tries each package: recipes.sh NAME STEP, in a copy of the package's source, where STEP is
#   build    by its own build system
#   tests    its own tests; status 0 where all pass. "none" where it has none that run without more packages
#   failed   the names of tests that fail, of the log of `tests` on the standard input
#   sample   some work, whose output has to be the same whichever linker made the program
#   program  the program whose size is compared
# The words are in the environment: CC (compiler and its options), HOST, LIBC (glibc or musl), JOBS, BUILDS (the folder of the other packages' copies),
# SOURCES (scripts/real), PACKAGES_LINKS and PACKAGES_BY (scripts/packages/ld).
set -u
name=$1 step=$2 CC=${CC:-cc} HOST=${HOST:-riscv64-linux-gnu} LIBC=${LIBC:-glibc} JOBS=${JOBS:-1}
tools=(AR="$HOST-ar" RANLIB="$HOST-ranlib")
configured() { ./configure --host="$HOST" CC="$CC" "${tools[@]}" "$@"; }
text() { cat "$SOURCES"/*.c "$SOURCES"/*.cpp "$SOURCES"/*.sql; }

# unpacked PACK UNPACK..: what a program packs and unpacks again is as it was; writes the sum of what it packed
unpacked() {
    local program=$1
    shift
    text >plain || return 1
    "$program" "$@" <plain >plain.packed || return 2
    "$program" -d <plain.packed | cmp - plain || return 3
    cksum <plain.packed
}

zlib() {
    case $step in
        build) CHOST=$HOST CC=$CC ./configure --static && make -j "$JOBS" static ;;
        tests) make teststatic ;;
        sample) unpacked ./minigzip -9 ;;
        program) echo minigzip ;;
    esac
}

libpng() {
    case $step in
        build) configured --disable-shared CPPFLAGS="-I$BUILDS/zlib" LDFLAGS="-L$BUILDS/zlib" && make -j "$JOBS" && make -j "$JOBS" check TESTS= ;;
        # most of the others, of gamma, take many minutes under qemu
        tests) make check TESTS="tests/pngtest-all tests/pngvalid-standard tests/pngvalid-progressive-standard tests/pngunknown-discard tests/pngimage-quick tests/pngstest-linear" ;;
        sample) ./pngfix --out=fixed.png pngtest.png && cksum <fixed.png && ./pngtest pngtest.png written.png | tail -n 4 && cksum <written.png ;;
        program) echo pngtest ;;
    esac
}

# by CMake. Its tests are in C++ too, which is not there on musl: CMake is told not to try it
expat() {
    local parts=(xmlwf runtests runtestspp)
    [ "$LIBC" = glibc ] || parts=(xmlwf runtests)
    case $step in
        build)
            read -ra words <<<"$CC"
            cat >cross.cmake <<CMAKE || return
set(CMAKE_SYSTEM_NAME Linux)
set(CMAKE_SYSTEM_PROCESSOR riscv64)
set(CMAKE_C_COMPILER ${words[0]})
set(CMAKE_CXX_COMPILER ${words[0]/%gcc/g++})
set(CMAKE_C_FLAGS_INIT "${words[*]:1}")
set(CMAKE_CXX_FLAGS_INIT "${words[*]:1}")
$([ "$LIBC" = glibc ] || echo 'set(CMAKE_CXX_COMPILER_WORKS TRUE)')
CMAKE
            cmake -S expat -B made -DCMAKE_TOOLCHAIN_FILE="$PWD/cross.cmake" -DCMAKE_BUILD_TYPE=Release -DEXPAT_SHARED_LIBS=OFF -DEXPAT_BUILD_DOCS=OFF \
                -DEXPAT_BUILD_EXAMPLES=OFF && cmake --build made -j "$JOBS" --target "${parts[@]}" ;;
        tests) for part in "${parts[@]:1}"; do "made/$(cd made && find . -name "$part" -type f | head -n 1)" || return; done ;;
        sample)
            mkdir -p written && printf '<!DOCTYPE a [<!ENTITY e "an entity">]><a d="1" b="&e;"><c>text &amp; more</c><!-- no --></a>' >given.xml &&
                made/xmlwf/xmlwf -d written given.xml && cat written/given.xml && echo "<a><b></a>" >bad.xml && ! made/xmlwf/xmlwf bad.xml ;;
        program) echo made/xmlwf/xmlwf ;;
    esac
}

bzip2() {
    case $step in
        build) make -j "$JOBS" CC="$CC" "${tools[@]}" bzip2 bzip2recover ;;
        tests) make CC="$CC" "${tools[@]}" test ;;
        sample) unpacked ./bzip2 -9 ;;
        program) echo bzip2 ;;
    esac
}

xz() {
    case $step in
        build) configured --disable-shared --disable-nls --disable-doc && make -j "$JOBS" && make -j "$JOBS" check TESTS= ;;
        tests) make check ;;
        sample) unpacked src/xz/xz -9e ;;
        program) echo src/xz/xz ;;
    esac
}

zstd() {
    local with=(CC="$CC" "${tools[@]}" HAVE_ZLIB=0 HAVE_LZMA=0 HAVE_LZ4=0)
    case $step in
        build) make -j "$JOBS" -C programs "${with[@]}" zstd && make -j "$JOBS" -C tests "${with[@]}" datagen fuzzer ;;
        # some of its random tests, and not the list before them, which takes many minutes
        tests) tests/fuzzer -v -s5 -t1 -i20 ;;
        sample) unpacked programs/zstd -19 -T2 ;;
        program) echo programs/zstd ;;
    esac
}

lua() {
    case $step in
        build) make -j "$JOBS" -C src posix CC="$CC -std=gnu99" AR="$HOST-ar rcu" RANLIB="$HOST-ranlib" ;;
        tests) make -C src test && src/lua "$SOURCES/tests.lua" | cmp - "$SOURCES/said/tests" ;;
        sample) src/luac -l -l -o made.luac "$SOURCES/tests.lua" | grep -v 0x && src/lua made.luac ;;
        program) echo src/lua ;;
    esac
}

sqlite() {
    case $step in
        build) mkdir -p made && cd made && ../configure --host="$HOST" CC="$CC" "${tools[@]}" --disable-tcl --disable-readline --disable-shared --disable-load-extension &&
            make -j "$JOBS" sqlite3 fuzzcheck ;;
        tests) made/fuzzcheck test/fuzzdata3.db ;;
        sample) made/sqlite3 -batch <"$SOURCES/tables.sql" | cmp - "$SOURCES/said/tables" && made/sqlite3 :memory: "select sqlite_source_id()" ;;
        program) echo made/sqlite3 ;;
    esac
}

mujs() {
    case $step in
        build) make -j "$JOBS" CC="$CC" "${tools[@]}" HAVE_READLINE=no build/release/mujs ;;
        tests) echo none ;;
        sample)
            cat >sample.js <<'JS'
var words = "the quick brown fox jumps over the lazy dog".split(" "), made = {};
words.forEach(function (w) { made[w] = (made[w] || 0) + w.length; });
print(JSON.stringify(made), words.sort().join("-"), Math.sqrt(2), (0.1).toFixed(20), 1 / 3, /q(u)i/.exec("the quick")[1]);
try { null.x; } catch (e) { print(e); }
function fib(n) { return n < 2 ? n : fib(n - 1) + fib(n - 2); }
print(fib(20), new Date(0).toISOString(), parseInt("zz", 36), "a,b".replace(/,/g, ";"));
JS
            build/release/mujs sample.js ;;
        program) echo build/release/mujs ;;
    esac
}

jq() {
    case $step in
        build) autoreconf -i && configured --disable-docs --disable-maintainer-mode --disable-shared --enable-static --without-oniguruma && make -j "$JOBS" ;;
        tests) make check ;;
        sample) echo '{"a":[1,2.5,{"b":"\u00e9"}],"c":null}' | ./jq -S '.a[2].b, (.a|length), (.a[1]|sqrt), tojson, ([limit(5;range(10))]|add), ("x,y"|split(","))' ;;
        program) echo jq ;;
    esac
}

# Its configure runs what it tries. Its tests run programs as they are compiled, for which a static compiler lacks the C library: so it compiles itself
tinycc() {
    export PACKAGES_TRIED=1
    local root
    root=$(dirname "$(dirname "$(readlink -f "$("$HOST-gcc" -print-file-name=libc.a)")")")
    case $step in
        build) ./configure --cc="$CC" --cpu=riscv64 --sysincludepaths="{B}/include:$root/include" --libpaths="{B}:$root/lib" --crtprefix="$root/lib" &&
            make -j "$JOBS" ;;
        tests) echo none ;;
        sample) ./tcc -v && ./tcc -B. -DONE_SOURCE=1 -I. -c tcc.c -o itself.o && cksum itself.o && ./tcc -B. -DONE_SOURCE=1 -I. tcc.c -o itself && cksum itself ;;
        program) echo tcc ;;
    esac
}

dash() {
    case $step in
        build) configured CC_FOR_BUILD=cc && make -j "$JOBS" ;;
        tests) echo none ;;
        sample)
            cat >sample.sh <<'SH'
count=0
for word in one "two words" three; do count=$((count + ${#word})); case $word in t*) echo "t: ${word#t}" ;; *) echo "${word%e}" ;; esac; done
echo "$count $(echo in a shell | while read -r a b; do echo "$b $a"; done)"
f() { local x=$1; [ "$x" -le 0 ] || { echo "$x"; f $((x - 1)); }; }
f 3; (exit 7) || echo "status $?"; printf '%05d %x %s\n' 42 255 "$(printf 'a\tb')"; set -- a b c; shift; echo "$*"
cat <<E
here ${count:+is} \$count ${none:-nothing}
E
trap 'echo end' EXIT
SH
            src/dash sample.sh ;;
        program) echo src/dash ;;
    esac
}

# Two of its parts are not for newer kernels, or not for this machine. It joins objects by `$(CC) -nostdlib -r`, which stays the compiler's own linker. Its rules strip the program, so this is left in its place, and run by way of a script only for the tests
busybox() {
    export PACKAGES_BARE=1
    local with=(ARCH=riscv CROSS_COMPILE="$HOST-" CC="$CC" LD="$HOST-gcc -nostdlib" HOSTCC=cc) made
    case $step in
        build)
            make "${with[@]}" defconfig && sed -i 's/^# CONFIG_STATIC is not set/CONFIG_STATIC=y/; s/^\(CONFIG_TC\|CONFIG_SHA1_HWACCEL\)=y/# \1 is not set/' .config &&
                make "${with[@]}" oldconfig </dev/null && make -j "$JOBS" "${with[@]}" || return
            made=$(grep -lx "$PWD/busybox_unstripped" "$PACKAGES_LINKS"/*/place) || return
            mv busybox busybox.stripped || return
            printf '#!/bin/sh\nexec qemu-riscv64 -0 "$0" "%s/${PACKAGES_BY:-rvld}" "$@"\n' "$(dirname "$made")" >busybox && chmod +x busybox ;;
        # without those of bc, of sums and of its sources, which take minutes under qemu, and those that want a network or another root
        tests)
            cd testsuite || return
            read -ra parts <<<"$(find . -mindepth 1 -maxdepth 1 \( -type d -o -name '*.tests' \) | sed 's|^./||; s|\.tests$||' | grep -vxE 'mdev|mount|wget|all_.*|bc|dc|md5sum|sha.*|tests.*' | sort -u | tr '\n' ' ')"
            SKIP_KNOWN_BUGS=1 ./runtest "${parts[@]}" ;;
        failed) sed -n 's/^FAIL: //p' ;;
        sample) ./busybox | sed -n '2,$p' | head -n 40 && ./busybox sha256sum Makefile && ./busybox ls -l README | wc -w && text | ./busybox gzip -9 | cksum && ./busybox awk 'BEGIN { print 2 ^ 40, sin(1) }' && ./busybox sh -c 'echo $((6 * 7))' ;;
        program) echo busybox_unstripped ;;
    esac
}

if [ "$step" = failed ] && [ "$name" != busybox ]; then
    grep -E '^(FAIL|ERROR|not ok|Test .* failed)' | sed 's/ *(.*//'
    exit 0
fi
"$name"; exit # one line, so that a change of this file while it runs changes nothing
