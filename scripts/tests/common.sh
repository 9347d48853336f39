# shellcheck shell=bash disable=SC2154,SC2034
# What the scripts that link real files share: read with `.`, with `script` set to its name.

# begin [PROGRAM]: finds the program (that of $RVLD if none is named; built first if it is not there), and goes to a folder to work in, which is $keep and stays,
# or is a new one and is removed
begin() {
    top=$(cd "$(dirname "${BASH_SOURCE[0]}")/../.." && pwd)
    rvld=${1:-${RVLD:-$top/crates/rvld/out/rvld}}
    if [ ! -x "$rvld" ]; then
        tell "building $rvld"
        (cd "$top/crates/rvld" && rt run >/dev/null 2>&1)
    fi
    [ -x "$rvld" ] || { tell "no program at $rvld"; exit 1; }
    rvld=$(cd "$(dirname "$rvld")" && pwd)/$(basename "$rvld")
    sources=$top/samples/programs
    if [ -n "${keep:-}" ]; then
        mkdir -p "$keep" || exit 1
        work=$(cd "$keep" && pwd)
    else
        work=$(mktemp -d)
        trap 'rm -rf "$work"' EXIT
    fi
    cd "$work" || exit 1
    passed=0 failed=0 skipped=0
}

# end: the last line, and the script's status
end() {
    echo "$passed passed, $failed failed, $skipped skipped"
    [ "$failed" = 0 ]
    exit
}

tell() { echo "$script: $*"; }
pass() { passed=$((passed + 1)); }
say() { failed=$((failed + 1)); tell "$*"; }
skip() { skipped=$((skipped + 1)); tell "skipped $1 ($2)"; }

# there WHAT TOOL..: whether all tools are there; else says that WHAT was skipped
there() {
    local what=$1 tool
    shift
    for tool; do
        command -v "$tool" >/dev/null 2>&1 || { skip "$what" "$tool is not there"; return 1; }
    done
}

# first_line FILE: of what a command wrote, as much as fits a line
first_line() { head -n 1 "$1" | cut -c 1-300; }

assemble() { riscv64-linux-gnu-as -march=rv64g -mabi=lp64d -o "$1" "$2" "${@:3}"; }

# compile OUT SOURCE [OPTION..]
compile() {
    clang --target=riscv64-unknown-elf -march=rv64gc -mabi=lp64d -mcmodel=medany -O1 -ffreestanding -fno-builtin \
        -nostdlib -fcommon -Wall -c -o "$1" "$2" "${@:3}"
}

# compile_cxx OUT SOURCE [OPTION..]: the same for C++ without exceptions and type information; .s is assembled
compile_cxx() {
    compile "$1" "$2" "${@:3}" -std=c++17 -fno-exceptions -fno-rtti -fno-threadsafe-statics -fno-use-cxa-atexit -Wno-unused-command-line-argument
}

# ends STATUS LINE WORD..: rvld WORD.. must end with this status and this line, a pattern of bash, and write nothing to the standard output
ends() {
    local line status
    line=$("$rvld" "${@:3}" 2>&1 >stdout)
    status=$?
    # shellcheck disable=SC2053
    [ "$status" = "$1" ] && [[ $line == $2 ]] && [ ! -s stdout ] && return 0
    say "${*:3}: status $status, '$line', not $1, '$2'$([ ! -s stdout ] || echo ", and something on the standard output")"
    return 1
}

# links OUT WORD..: rvld -s -o OUT WORD.. must end with status 0 and without a line
links() { ends 0 "" -s -o "$@"; }

# refused LINE WORD..: rvld -s -o refused.out WORD.. must end with status 1 and this line, and make no file
refused() {
    rm -f refused.out
    ends 1 "$1" -s -o refused.out "${@:2}" || return
    if [ -e refused.out ]; then say "${*:2}: refused, and a file was made"; else pass; fi
}

# reads EXECUTABLE: readelf has no complaint
reads() {
    local complaint
    complaint=$(riscv64-linux-gnu-readelf -hlS "$1" 2>&1 >/dev/null)
    [ -z "$complaint" ] || { say "$1: readelf: $complaint"; return 1; }
}

# same A B WHAT: the two files must have the same bytes
same() { if cmp -s "$1" "$2"; then pass; else say "$3: $1 and $2 differ"; fi; }

# runs EXECUTABLE STATUS SAID: it must write what the file SAID has, and end so
runs() {
    local status
    qemu-riscv64 "./$1" >said 2>complaint
    status=$?
    if [ "$status" != "$2" ]; then say "$1: it ended with $status, not $2: $(head -c 200 complaint)"; return 1; fi
    cmp -s said "$3" || { say "$1: it wrote '$(head -c 200 said)'"; return 1; }
}

# in_chance_order SEED WORD..: the words, one a line, in an order that the seed decides
in_chance_order() { python3 -c 'import random, sys; words = sys.argv[2:]; random.Random(int(sys.argv[1])).shuffle(words); print(*words, sep="\n")' "$@"; }
