#!/usr/bin/env bash
# Ten files of C with many texts, of which most stand in several: the pool of texts has each of them once, as that of ld.lld, and the program
# says all that its files say. Wide texts and constants of 4, 8 and 16 bytes too.
# Usage: scripts/tests/strings.sh [RVLD]     RVLD: the program; else $RVLD, else crates/rvld/out/rvld, built first if it is not there
set -u
script="strings"
. "$(dirname "${BASH_SOURCE[0]}")/common.sh"
begin "$@"
there "all programs" clang python3 qemu-riscv64 riscv64-linux-gnu-objcopy || end

# sources SEED: ten files of texts made by chance, and what the program writes
sources() {
    python3 - "$1" <<'END'
import random, sys
chance = random.Random(int(sys.argv[1]))
words = ['link', 'section', 'symbol', 'text', 'piece', 'pool', 'place', 'a', 'b', '', 'the end', 'of', 'x' * 40]
texts = sorted({' '.join(chance.choice(words) for _ in range(chance.randrange(5))) for _ in range(300)})
said = ''
calls = ''
for k in range(10):
    own = [chance.choice(texts) for _ in range(80)]
    said += ''.join(text + '\n' for text in own)
    lines = ''.join('    say("%s");\n' % text for text in own)
    calls += '    part%d();\n' % k
    wide = ''.join('    sum += wide(L"%s");\n' % text for text in own[:10])
    with open('part%d.c' % k, 'w') as file:
        file.write('void say(const char *);\nlong wide(const __WCHAR_TYPE__ *);\ndouble numbers(double);\nvoid part%d(void);\nlong sum;\n'
                   'void part%d(void) {\n%s%s    sum += (long)numbers(%d.25);\n}\n' % (k, k, lines, wide, k % 3))
with open('main.c', 'w') as file:
    file.write('''
long sum;
static void put(const char *text, long length) {
    register long number __asm__("a7") = 64;
    register long stream __asm__("a0") = 1;
    register const char *from __asm__("a1") = text;
    register long count __asm__("a2") = length;
    __asm__ volatile("ecall" : "+r"(stream) : "r"(number), "r"(from), "r"(count) : "memory");
}
void say(const char *text) {
    long length = 0;
    while (text[length]) length++;
    put(text, length);
    put("\\n", 1);
}
long wide(const __WCHAR_TYPE__ *text) {
    long n = 0;
    while (*text) n += *text++;
    return n;
}
double numbers(double n) { return n * 4 + 1.5; }
%s
__attribute__((noreturn)) void _start(void) {
%s    register long number __asm__("a7") = 93;
    register long status __asm__("a0") = sum %% 100;
    __asm__ volatile("ecall" : : "r"(number), "r"(status) : "memory");
    __builtin_unreachable();
}
''' % (''.join('void part%d(void);\n' % k for k in range(10)), calls))
open('said.expected', 'w').write(said)
END
}

# texts EXECUTABLE: the texts of .rodata, each with how often it stands there
texts() {
    riscv64-linux-gnu-objcopy -O binary -j .rodata "$1" rodata.bytes
    tr '\0' '\n' <rodata.bytes | grep -aE '^[[:print:]]+$' | sort | uniq -c
}

# size_of EXECUTABLE: the bytes of .rodata
size_of() { riscv64-linux-gnu-readelf -SW "$1" | sed -n 's/^ *\[ *[0-9]*\] //p' | awk '$1 == ".rodata" { print $5 }'; }

for seed in 1 2 3; do
    for options in "-O0" "-O2" "-Os -ffunction-sections -fdata-sections" "-O2 -fno-pic -mcmodel=medlow"; do
        sources "$seed"
        files=()
        for part in main part{0..9}; do
            # shellcheck disable=SC2086
            compile "$part.o" "$part.c" -mno-relax -fno-asynchronous-unwind-tables -w $options || { say "$part.c is not compiled"; end; }
            files+=("$part.o")
        done
        links ours.out --no-relax "${files[@]}" || continue
        qemu-riscv64 ./ours.out >said
        status=$?
        cmp -s said said.expected && pass || say "seed $seed $options: it wrote '$(head -c 100 said)'"
        texts ours.out >ours.texts
        twice=$(awk '$1 > 1 && length($0) > 12' ours.texts | head -n 3 | tr '\n' ' ')
        [ -z "$twice" ] && pass || say "seed $seed $options: more than once: $twice"
        for words in --gc-sections "--icf all" "--threads 64"; do
            # shellcheck disable=SC2086
            links less.out $words --no-relax "${files[@]}" && qemu-riscv64 ./less.out >said
            [ $? = "$status" ] && cmp -s said said.expected && pass || say "seed $seed $options $words: it wrote '$(head -c 100 said)'"
        done
        there "the comparison with ld.lld" ld.lld || continue
        ld.lld -O1 -z nognustack -z norelro -o peer.out "${files[@]}" || { say "seed $seed: ld.lld does not link it"; continue; }
        qemu-riscv64 ./peer.out >said
        [ $? = "$status" ] && pass || say "seed $seed $options: another status than that of ld.lld"
        texts peer.out >peer.texts
        diff ours.texts peer.texts >differences && pass || say "seed $seed $options: texts of ours and of ld.lld's: $(head -n 5 differences | tr '\n' ' ')"
        [ "$(size_of ours.out)" = "$(size_of peer.out)" ] && pass ||
            say "seed $seed $options: .rodata has $(size_of ours.out) bytes, that of ld.lld $(size_of peer.out)"
    done
done
end
