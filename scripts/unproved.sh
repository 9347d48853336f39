#!/usr/bin/env bash
# Builds rvld optimized and with NOTHING PROVED, for a first look, or to measure a change before its proof. The toolchain's `rt try` compiles without a
# proof, at -O0 and with a memory checker, and takes its program away; here it finds a folder of links to the toolchain in which the compiler is called
# with -O3 and without the checker, and what was linked is kept. The tests of each index, sum and value, which a proved program has not, are taken out of
# the module before it is compiled (scripts/untested.py), so times and memory are those of the proved program; with --tested they stay.
# Usage: scripts/unproved.sh [--quick] [--tested] [--piped] FILE     FILE: where the program goes, outside crates/; --quick: -O1, to try what it does and not how fast;
# --piped: rvld_piped in place of rvld
set -eu
level=-O3 tested= program=rvld
while :; do
    case ${1:-} in
        --quick) level=-O1 tested=1; shift;;
        --tested) tested=1; shift;;
        --piped) program=rvld_piped; shift;;
        *) break;;
    esac
done
top=$(cd "$(dirname "${BASH_SOURCE[0]}")/.." && pwd)
[ $# = 1 ] || { echo "usage: scripts/unproved.sh [--quick] [--tested] [--piped] FILE"; exit 2; }
to=$(realpath -m "$1")
case $to in "$top"/crates/*) echo "unproved: $1 is in crates/, where proved programs stand"; exit 2;; esac
kit=$(dirname "$(rt doc)")
work=$(mktemp -d)
trap 'rm -rf "$work"' EXIT
mkdir -p "$work/kit/bin" "$work/kit/toolchain/bin"
for it in "$kit"/*; do
    case ${it##*/} in bin|toolchain) ;; *) ln -s "$it" "$work/kit/";; esac
done
for it in "$kit"/bin/*; do
    # (rt finds the toolchain beside its own file, so it has to be a copy)
    case ${it##*/} in rt|rtlib.py) cp "$it" "$work/kit/bin/";; *) ln -s "$it" "$work/kit/bin/";; esac
done
for it in "$kit"/toolchain/*; do
    [ "${it##*/}" = bin ] || ln -s "$it" "$work/kit/toolchain/"
done
for it in "$kit"/toolchain/bin/*; do
    case ${it##*/} in clang|ld.lld) ;; *) ln -s "$it" "$work/kit/toolchain/bin/";; esac
done
cat > "$work/kit/toolchain/bin/clang" <<WRAP
#!/usr/bin/env bash
words=()
for word; do
    case \$word in
        -O0) words+=($level);;
        -fsanitize=address) ;;
        -march=x86-64) words+=(-march=x86-64-v2);;
        *.bc)
            if [ -z "$tested" ]; then
                "$kit/toolchain/bin/clang" --target=x86_64-unknown-linux-gnu -x ir "\$word" -S -emit-llvm -o tested.ll -O0 -Xclang -disable-llvm-passes
                python3 "$top/scripts/untested.py" tested.ll untested.ll
                rm tested.ll
                word=untested.ll
            fi
            words+=("\$word");;
        *) words+=("\$word");;
    esac
done
exec "$kit/toolchain/bin/clang" "\${words[@]}"
WRAP
# (the checker's library stands whole, by a name that doesn't tell it)
cat > "$work/kit/toolchain/bin/ld.lld" <<WRAP
#!/usr/bin/env bash
words=() out= last= whole=
for word; do
    case \$word in --whole-archive) whole=1; continue;; --no-whole-archive) whole=; continue;; esac
    [ -z "\$whole" ] || continue
    [ "\$last" = -o ] && out=\$word
    last=\$word
    words+=("\$word")
done
"$kit/toolchain/bin/ld.lld" "\${words[@]}" && cp "\$out" "$work/linked"
WRAP
chmod +x "$work/kit/toolchain/bin/clang" "$work/kit/toolchain/bin/ld.lld"
# (try runs what it built, without words: status 2 is rvld's own answer to that)
(cd "$top/crates/$program" && "$work/kit/bin/rt" try > "$work/said" 2>&1) || true
[ -f "$work/linked" ] || { cat "$work/said"; echo "unproved: rt try linked nothing"; exit 1; }
install -m 755 "$work/linked" "$to"
echo "unproved: $1 is built, and nothing of it is proved"
