#!/usr/bin/env bash
# Each allocation of a link made to fail in turn, until one is asked for that the link does not come to. Each run has to end
# with 0 and the whole executable, or with 4 and no file, and with nothing on either stream but at 0 what the link has to say.
# Linked are the sample a.o, and with one worker and with four generated objects, the program of many files, and with
# --gc-sections the one in C++ and an object of 3,000 sections, one of which leads to so many that workers share what they lead to; and an object of 1 MB of
# data, whose executable has 16 blocks.
# Usage: scripts/tests/fail-alloc.sh [RVLD]     RVLD: the program; else $RVLD, else crates/rvld/out/rvld, built first if it is not there
# shellcheck disable=SC1091,SC2154
set -u
script=fail-alloc
. "$(dirname "${BASH_SOURCE[0]}")/common.sh"
begin "$@"
there "all" cc timeout || { say "nothing was tested"; end; }
cc -shared -fPIC -O1 -fno-builtin -Wall -o fail.so "$top/scripts/tests/fail_alloc.c" -ldl ||
    { say "fail_alloc.c is not compiled"; end; }

# each_fails WHAT WHOLE WORD..: the runs of rvld -o failed.out WORD.., whose executable is the file WHOLE, and which say what is in the file $said
said=/dev/null
each_fails() {
    local n=0 status count wanting=0 linked=0 right
    while :; do
        n=$((n + 1))
        rm -f failed.out count
        timeout 60 env FAIL_ALLOC=$n COUNT_TO=count LD_PRELOAD="$work/fail.so" "$rvld" -o failed.out "${@:3}" >told 2>&1
        status=$?
        count=$(cat count 2>/dev/null)
        right=0
        if [ -n "$count" ]; then
            case $status in
                0) cmp -s failed.out "$2" && cmp -s told "$said" && right=1 ;;
                4) [ ! -s told ] && [ ! -e failed.out ] && [ ! -L failed.out ] && [ "$count" -ge $n ] && right=1 ;;
            esac
        fi
        if [ $right = 0 ]; then
            say "$1: allocation $n of ${count:-an unknown number}: status $status, '$(head -c 200 told)'"
            # a count that is not told says that the program was ended from outside; it can't be known where to stop
            [ -n "$count" ] || return
        fi
        # the run in which nothing failed is the last
        [ "$count" -ge $n ] || break
        [ $right = 0 ] || pass
        if [ $status = 4 ]; then wanting=$((wanting + 1)); else linked=$((linked + 1)); fi
    done
    [ $status = 0 ] || say "$1: status $status where no allocation failed"
    [ $wanting -gt 0 ] || say "$1: no run was in want of memory"
    echo "$script: $1: $wanting ended with 4, $linked linked"
}

cp "$top/samples/first/a.o" .
each_fails a.o "$top/samples/first/a.out" -s a.o

for objects in "2" "15 --gc-sections --icf all"; do
    # shellcheck disable=SC2086
    "$rvld" -o generated.out --self-input $objects >generated.said || { say "--self-input $objects: no link"; end; }
    said=generated.said
    for threads in 1 4; do
        # shellcheck disable=SC2086
        each_fails "--self-input $objects, workers: $threads" generated.out --threads "$threads" --self-input $objects
    done
done
said=/dev/null

if there "sections that workers share" python3; then
    python3 - "$top/scripts" <<'END' || { say "star.o is not made"; end; }
import sys
sys.path.insert(0, sys.argv[1])
from speed import led_data, write
write('star.o', led_data(0, 3001, lambda k: range(1, 1501) if k == 0 else [k + 1500] if k <= 1500 else []))
END
    links star.out --gc-sections star.o || end
    for threads in 1 4; do
        each_fails "3,001 sections, workers: $threads" star.out -s --gc-sections --threads "$threads" star.o
    done
fi

# an executable of many blocks: nothing is taken once its file is begun
if there "many blocks" python3; then
    python3 -c 'import sys; sys.path.insert(0, sys.argv[1]); import speed; speed.data(".", 1)' "$top/scripts" || { say "data-1.o is not made"; end; }
    links data.out data-1.o || end
    for threads in 1 4; do
        each_fails "1 MB of data, workers: $threads" data.out -s --threads "$threads" data-1.o
    done
fi

there "the program of many files" clang riscv64-linux-gnu-readelf qemu-riscv64 || end
files=()
for source in "$sources"/many/*.c; do
    object=$(basename "${source%.c}").o
    case $object in noted.o | again.o) continue ;; esac
    compile "$object" "$source" || { say "$source is not compiled"; end; }
    files+=("$object")
done
links many.out "${files[@]}" || end
runs many.out 86 "$sources/many.said" || end
for threads in 1 4; do
    each_fails "many files, workers: $threads" many.out -s --threads "$threads" "${files[@]}"
done

files=()
for source in "$sources"/templates/*.cc "$sources"/templates/*.s; do
    object=$(basename "${source%.*}").o
    compile_cxx "$object" "$source" -ffunction-sections -fdata-sections || { say "$source is not compiled"; end; }
    files+=("$object")
done
links kept.out --gc-sections "${files[@]}" || end
for threads in 1 4; do
    each_fails "groups, workers: $threads" kept.out -s --gc-sections --threads "$threads" "${files[@]}"
done
end
