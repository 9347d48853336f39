#!/usr/bin/env bash
# What becomes of a file that stands under the output's name: a regular one makes way for a new one, be it running, linked
# under other names, or the output of another link at this moment; anything else is written in place; and where the output
# can't be begun, what is there stays.
# Usage: scripts/tests/outputs.sh [RVLD]     RVLD: the program; else $RVLD, else crates/rvld/out/rvld, built first if it is not there
# shellcheck disable=SC1091,SC2154
set -u
script=outputs
. "$(dirname "${BASH_SOURCE[0]}")/common.sh"
begin "$@"
samples=$top/samples/first
cp "$samples/a.o" "$samples/big.o" .
new=$samples/a.out

# ok WHAT TEST..: counts WHAT by the status of the test
ok() { if "${@:2}"; then pass; else say "$1"; fi; }

# over OUT: links a.o to OUT, which stands there; the new file must be whole
over() { links "$1" a.o && cmp -s "$1" "$new"; }

# What a new file's permissions are.
links fresh a.o || end
mode=$(stat -c %a fresh)

# A program that runs goes on, and can be linked anew.
running() { [ "$(readlink "/proc/$1/exe" 2>/dev/null)" = "$work/busy" ]; }
cp "$(command -v sleep)" busy && chmod 755 busy
./busy 60 &
busy=$!
for _ in $(seq 50); do
    if running $busy; then break; fi
    sleep 0.1
done
if running $busy; then
    ok "a program that runs is not replaced" over busy
    ok "a program that ran is ended" kill -0 $busy
else
    skip "a program that runs" "none can be started in $work"
fi
kill $busy 2>/dev/null
wait $busy 2>/dev/null

# The other names of a file keep it, and its permissions stay behind.
printf 'the old program' >old
chmod 400 old
ln old program
ok "a file with two names is not replaced" over program
ok "the other name does not keep the old file" [ "$(cat old)" = "the old program" ]
ok "the permissions are not a new file's" [ "$(stat -c %a program)" = "$mode" ]
ok "the permissions of the other name change" [ "$(stat -c %a old)" = 400 ]

# The file to which a symbolic link leads is written to.
printf 'more than rvld writes%.0s' $(seq 1 1000) >target
chmod 644 target
ln -s target link
ok "the target of a link is not written" over link
ok "a link does not stay one" [ -L link ]
ok "the target of a link is not the whole program" cmp -s target "$new"
ok "the target of a link may not be run" [ -x target ]

# A FIFO is one for ever.
mkfifo fifo
timeout 20 cat fifo >got &
reader=$!
ok "a FIFO is not written" timeout 20 "$rvld" -s -o fifo a.o
wait $reader
ok "a FIFO does not stay one" [ -p fifo ]
ok "a FIFO's reader does not get the whole program" cmp -s got "$new"

# stays FOLDER: a link to FOLDER/program fails, and leaves what is there
stays() {
    local line
    line=$("$rvld" -s -o "$1/program" a.o 2>&1)
    [ $? = 3 ] && [ "$line" = "rvld: cannot write $1/program" ] && [ "$(cat "$1/program")" = "the old program" ]
}
if [ "$(id -u)" = 0 ]; then
    skip "a folder that takes no file" "root may make files anywhere"
else
    mkdir closed
    printf 'the old program' >closed/program
    chmod 555 closed
    ok "a file in a folder that takes no other does not stay" stays closed
    chmod 755 closed
fi

# Of two links at once one is left whole.
whole=0
for _ in $(seq 50); do
    "$rvld" -s -o both a.o &
    first=$!
    "$rvld" -s -o both big.o &
    second=$!
    wait $first || { say "the first of two links at once fails"; break; }
    wait $second || { say "the second of two links at once fails"; break; }
    cmp -s both "$new" || cmp -s both "$samples/big.out" || { say "two links at once leave a mixed file"; break; }
    whole=$((whole + 1))
done
[ $whole = 50 ] && pass

ok "files are left: $(find . -name '.rvld*')" [ -z "$(find . -name '.rvld*')" ]
end
