#!/usr/bin/env bash
# What who comes to rvld does first, tried as it would be: a fresh clone of this repository, scripts/install.sh, and a `hello` in C and one in C++ that
# are linked by `gcc -static` and two more words, and run. In an environment that has nothing of this one but the path.
#   RVLD=PROGRAM   the program that the clone is given as crates/rvld/out/rvld, where the gate leaves it; else this checkout's. It is not proved anew.
# Usage: scripts/new-user.sh
# A line for each command with the seconds that it took; the status is 0 where all end well and both programs write what they should.
set -u
top=$(cd "$(dirname "${BASH_SOURCE[0]}")/.." && pwd)
rvld=${RVLD:-$top/crates/rvld/out/rvld}
[ -x "$rvld" ] || { echo "new-user: no program at $rvld: build it (cd crates/rvld && rt run), or set RVLD"; exit 1; }
for tool in git riscv64-linux-gnu-gcc riscv64-linux-gnu-g++ qemu-riscv64 python3; do
    command -v $tool >/dev/null 2>&1 || { echo "new-user: all skipped: $tool is not there"; exit 0; }
done
work=$(mktemp -d)
trap 'rm -rf "$work"' EXIT
rvld=$(readlink -f "$rvld") && cd "$work" || exit 1
printf '#include <stdio.h>\nint main(void) { printf("hello, %%d\\n", 42); return 0; }\n' >hello.c
printf '#include <iostream>\n#include <map>\n#include <string>\nint main() { std::map<std::string, int> m{{"hello, ", 42}}; for (auto &e : m) std::cout << e.first << e.second << std::endl; }\n' >hello.cpp

# as_user WORD..: runs the command, and says how long it took
as_user() {
    local begin end
    begin=$(date +%s%N)
    env -i HOME="$work" PATH="$PATH" "$@" >said 2>&1 || { echo "new-user: fails: $*: $(head -n 1 said)"; exit 1; }
    end=$(date +%s%N)
    printf 'new-user: %d.%02d s: %s\n' $(((end - begin) / 1000000000)) $(((end - begin) / 10000000 % 100)) "${*//"$work"\//}"
}

# writes TEXT PROGRAM: what a program has to write
writes() { [ "$(qemu-riscv64 "./$2")" = "$1" ] || { echo "new-user: $2 does not write $1"; exit 1; }; }

as_user git clone -q "$top" clone
# newer than the sources, which install.sh would build it anew of
mkdir -p clone/crates/rvld/out && cp "$rvld" clone/crates/rvld/out/rvld || exit 1
as_user clone/scripts/install.sh "$work/tools"
as_user riscv64-linux-gnu-gcc -static -B tools/lib/rvld hello.c -o hello
writes "hello, 42" hello
as_user riscv64-linux-gnu-g++ -static -B tools/lib/rvld hello.cpp -o hello++
writes "hello, 42" hello++
as_user riscv64-linux-gnu-gcc -static -g -O2 -B tools/lib/rvld hello.c -o hello
writes "hello, 42" hello
echo "new-user: OK"
