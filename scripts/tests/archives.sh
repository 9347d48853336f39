#!/usr/bin/env bash
# Links the program of many files from archives of every form that the archivers here make, and runs it; archives of other forms are
# refused. Then archives that pull members of each other: which members are live is read from the executable, where each live member
# has left its mark, and is compared with what is expected and with what ld.lld says it took.
# Usage: scripts/tests/archives.sh [RVLD]     RVLD: the program; else $RVLD, else crates/rvld/out/rvld, built first if it is not there
set -u
script=archives
. "$(dirname "${BASH_SOURCE[0]}")/common.sh"
begin "$@"
export PYTHONPATH=$top/scripts PYTHONDONTWRITEBYTECODE=1

# members that live: the marks in an executable, as words ARCHIVE/MEMBER
marks() { grep -ao '<live [^>]*>' "$1" | sed 's/<live \(.*\)>/\1/' | sort; }

# taken OBJECT-OR-ARCHIVE..: what ld.lld takes, as the same words
taken() { ld.lld -o lld.out --trace "$@" | sed 's/\(.*\)(\(.*\))$/\1\/\2/' | sort; }

# cascade: objects and archives from the lines of a table; each has its mark. Prints the files in order of first appearance
cascade() {
    python3 - "$1" <<'END'
import sys
from elf.read import defined
from elf.write import archive, simple
archives, order = {}, []
for row in open(sys.argv[1]):
    if row.startswith('#'):
        continue
    place, defines, calls, weakly, _ = row.rstrip('\n').split('\t')
    words = [[] if field == '-' else field.split(',') for field in (defines, calls, weakly)]
    contents = simple(*words, mark=b'<live %s>' % place.encode())
    file, _, member = place.partition('/')
    if file not in order:
        order.append(file)
    if member:
        archives.setdefault(file, []).append((member, contents))
    else:
        open(file, 'wb').write(contents)
for file, members in archives.items():
    index = [(text, k) for k, (_, contents) in enumerate(members) for text in defined(contents)]
    open(file, 'wb').write(archive(members, index, wide=file.startswith('two')))
print(*order)
END
}

# lives WHAT TABLE EXPECTED: links the table's files in order, and compares the live members
lives() {
    local files
    read -ra files < <(cascade "$2")
    links live.out "${files[@]}" || return
    marks live.out >live
    cmp -s live "$3" || { say "$1: live members are $(tr '\n' ' ' <live)and not $(tr '\n' ' ' <"$3")"; return; }
    if [ "$peer" = yes ]; then
        taken "${files[@]}" >took
        cmp -s took "$3" || { say "$1: ld.lld takes $(tr '\n' ' ' <took)and not $(tr '\n' ' ' <"$3")"; return; }
    fi
    pass
}

peer=yes
there "the comparison with ld.lld" ld.lld || peer=no
there "archives that pull from each other" python3 || end

sed -n 's/\t.*\tyes$//p' "$sources/cascade" | sort >expected
lives "three archives before the objects" "$sources/cascade" expected

# tables made by chance: which members live is worked out here once more, by the rule alone
for seed in $(seq 1 40); do
    python3 - "$seed" >table 2>expected <<'END'
import random, sys
chance = random.Random(int(sys.argv[1]))
count = chance.randrange(5, 40)
names = list(range(count))
chance.shuffle(names)
rows = []
for k, own in enumerate(names):
    calls = ['n%d' % chance.choice(names) for _ in range(chance.choice([0, 0, 1, 1, 2]))]
    weakly = ['n%d' % chance.choice(names) for _ in range(chance.choice([0, 0, 1]))]
    calls = sorted(set(calls) - {'n%d' % own})
    weakly = sorted(set(weakly) - set(calls) - {'n%d' % own})
    rows.append(['%s.a/member_%d%s.o' % (chance.choice('abc'), k, chance.choice(['', '_of_a_long_name'])), ['n%d' % own], calls, weakly])
root = ['main.o', ['_start'], ['n%d' % n for n in sorted(chance.sample(range(count), 2))], ['n%d' % chance.randrange(count)]]
root[3] = [n for n in root[3] if n not in root[2]]
rows.sort(key=lambda row: row[0].split('/')[0])
rows.insert(chance.choice([0, len(rows)]), root)
owner = {row[1][0]: row for row in rows}
live, queue = set(), [root]
while queue:
    row = queue.pop()
    if row[0] not in live:
        live.add(row[0])
        queue += [owner[n] for n in row[2]]
for row in rows:
    print(row[0], *[','.join(field) or '-' for field in row[1:]], '-', sep='\t')
for place in sorted(live):
    print(place, file=sys.stderr)
END
    LC_ALL=C sort -o expected expected
    LC_ALL=C lives "seed $seed" table expected
done

there "archives of real files" clang riscv64-linux-gnu-ar riscv64-linux-gnu-readelf qemu-riscv64 || end
members=()
for part in base cursor expression factor leave memory note orders output shared slots term base-default; do
    object=$part.o
    [ "$part" != factor ] || object=factor_of_a_term_or_a_call.o
    [ "$part" != slots ] || object=slots_of_the_names_a_to_z.o
    compile "$object" "$sources/many/$part.c" || { say "$part.c is not compiled"; end; }
    members+=("$object")
done
compile start.o "$sources/many/start.c" || { say "start.c is not compiled"; end; }
printf x >>memory.o                                     # a member of odd size
printf 'no object at all' >notes.txt                    # text, of even and of odd size
printf 'nor is this' >a_text_that_has_a_long_name.txt
members=(notes.txt "${members[@]:0:5}" a_text_that_has_a_long_name.txt "${members[@]:5}")
[ $(($(wc -c <memory.o) % 2)) = 1 ] || printf x >>memory.o

# program ARCHIVE: the program must run from it, before and behind the object that needs it, and be the same from all archives
program() {
    cp "$1" lib.a
    links before.out lib.a start.o && runs before.out 86 "$sources/many.said" || return
    links behind.out --threads 2 start.o lib.a && runs behind.out 86 "$sources/many.said" || return
    if grep -q 'the weak mark' behind.out; then say "$1: base-default.o is live"; return; fi
    [ -e first.out ] || cp behind.out first.out
    cmp -s behind.out first.out || { say "$1: another executable"; return; }
    links twice.out start.o lib.a lib.a && same twice.out first.out "$1: the archive twice"
}

gnu=riscv64-linux-gnu-ar
"$gnu" rcs indexed.a "${members[@]}" && program indexed.a
"$gnu" rcS bare.a "${members[@]}" && program bare.a
"$gnu" rcsU dated.a "${members[@]}" && program dated.a
"$gnu" rcsT thin.a "${members[@]}"
refused "rvld: F07 Thin file=thin.a section=0 place=0 name= other=0" start.o thin.a
if there "archives by llvm-ar" llvm-ar; then
    llvm-ar --format=gnu rcs llvm.a "${members[@]}" && program llvm.a
    llvm-ar --format=gnu rcS llvm-bare.a "${members[@]}" && program llvm-bare.a
    rm -f llvm-thin.a
    llvm-ar rcT llvm-thin.a "${members[@]}"
    refused "rvld: F07 Thin file=llvm-thin.a section=0 place=0 name= other=0" start.o llvm-thin.a
    llvm-ar --format=bsd rcS llvm-bsd.a "${members[@]}"
    refused "rvld: F18 BsdName file=llvm-bsd.a section=0 place=8 name= other=0" start.o llvm-bsd.a
    llvm-ar --format=bsd rcs llvm-bsd-index.a "${members[@]}"
    refused "rvld: F18 BsdName file=llvm-bsd-index.a section=0 place=8 name= other=0" start.o llvm-bsd-index.a
fi
printf '!<arch>\n' >empty.a
links empty.out start.o indexed.a empty.a && same empty.out first.out "an empty archive"

# by hand: a name in the manner of BSD behind a good member, and structures that are broken
{ printf '!<arch>\n%-16s%-12d%-6d%-6d%-8s%-10d`\n' leave.o/ 0 0 0 644 "$(wc -c <leave.o)"; cat leave.o; } >good.a
at=$(wc -c <good.a)
{ cat good.a; printf '%-16s%-12d%-6d%-6d%-8s%-10d`\n' '#1/20' 0 0 0 644 24; printf 'member_of_20_bytes.otext'; } >bsd.a
refused "rvld: F18 BsdName file=bsd.a section=0 place=$at name= other=0" bsd.a start.o
{ cat good.a; printf '%-16s%-12d%-6d%-6d%-8s%-10d`\n' bare.o 0 0 0 644 4; printf 'text'; } >no-slash.a
refused "rvld: F18 BsdName file=no-slash.a section=0 place=$at name= other=0" no-slash.a start.o
{ cat good.a; printf '%-16s%-12d%-6d%-6d%-8s%-10d`\n' /4 0 0 0 644 4; printf 'text'; } >no-table.a
refused "rvld: F06 BadArchive file=no-table.a section=0 place=$at name= other=0" no-table.a start.o
head -c 67 good.a >cut-header.a
refused "rvld: F06 BadArchive file=cut-header.a section=0 place=8 name= other=0" cut-header.a start.o
head -c "$((at - 1))" good.a >cut-data.a
refused "rvld: F06 BadArchive file=cut-data.a section=0 place=8 name= other=0" start.o cut-data.a
{ cat good.a; printf '%-16s%-12d%-6d%-6d%-8s%-10s`\n' x.o/ 0 0 0 644 4x; printf 'text'; } >no-size.a
refused "rvld: F06 BadArchive file=no-size.a section=0 place=$at name= other=0" no-size.a start.o

# a head is looked at in every member, a body only in a live one
head -c 63 leave.o >two.o
rm -f lib.a
"$gnu" rcs lib.a leave.o two.o >/dev/null 2>&1
refused "rvld: F02 BadHeader file=lib.a(two.o) section=0 place=63 name= other=0" start.o lib.a
if there "compressed members" riscv64-linux-gnu-objcopy; then
    compile debugged.o "$sources/many/leave.c" -g
    riscv64-linux-gnu-objcopy --compress-debug-sections debugged.o compressed.o
    if riscv64-linux-gnu-readelf -SW compressed.o | grep -q ' C '; then
        rm -f lib.a
        "$gnu" rcs lib.a "${members[@]}" compressed.o
        links unread.out start.o lib.a && same unread.out first.out "the body of a member that is not live"
        refused "rvld: F05 Compressed file=compressed.o section=+([0-9]) place=+([0-9]) name= other=0" start.o compressed.o
    else
        skip "compressed members" "objcopy compresses nothing"
    fi
fi
end
