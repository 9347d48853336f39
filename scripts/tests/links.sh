# shellcheck shell=bash disable=SC2154,SC2034
# What the scripts that link and run real programs share: read with `.` after common.sh.

# ready: goes to the work folder ($keep, if it is set) and finds what this rvld takes. Sets `is_rvld`, `rvld_words`, `has_map` and `has_input`; `trials`, the options with
# which each program is linked, and `limit`, the seconds of a link. Makes a program `rvld` on the path, one `rvld_piped` where that is built ($RVLD_PIPED), and `drivers`, with the linker that drivers call
ready() {
    begin
    sources=$top/scripts/real
    said=$sources/said
    . "$sources/debian.sh"
    command -v qemu-riscv64 >/dev/null 2>&1 || { skip "all" "qemu-riscv64 is not there"; exit 0; }
    # an input that is not there is looked for once the command is accepted
    if [ "$("$rvld" 2>&1)" = "rvld: bad command" ]; then is_rvld=1; else is_rvld=0; fi
    if [ -n "${RVLD_WORDS+set}" ]; then
        rvld_words=$RVLD_WORDS
    elif [ "$("$rvld" -o probe.out none.o 2>&1)" != "rvld: bad command" ]; then
        rvld_words=
    else
        rvld_words=-s
    fi
    trials=("" "--no-relax" "--gc-sections" "--gc-sections --icf all" "--gc-sections --icf safe") limit=300
    [ -z "${REAL_ONCE:-}" ] || { trials=("--gc-sections"); limit=3000; }
    has_map=0
    # shellcheck disable=SC2086
    [ "$("$rvld" $rvld_words --Map probe.map -o probe.out none.o 2>&1)" != "rvld: cannot read none.o" ] || has_map=1
    # shellcheck disable=SC2086
    if [ "$("$rvld" $rvld_words --self-input 2 -o probe.out 2>/dev/null | cut -c 1-9)" = "objects 2" ]; then has_input=1; else has_input=0; fi
    mkdir -p bin drivers
    cat >bin/rvld <<END
#!/bin/sh
case " \$* " in *" -s "*) ;; *) set -- $rvld_words "\$@" ;; esac
exec "$rvld" "\$@"
END
    chmod +x bin/rvld
    ln -sf "$top/scripts/rvld-ld" drivers/ld
    local piped=${RVLD_PIPED:-$top/crates/rvld_piped/out/rvld_piped}
    [ ! -x "$piped" ] || ln -sf "$(realpath "$piped")" bin/rvld_piped
    rvld=$work/bin/rvld
    export RVLD=$rvld PATH=$work/bin:$PATH
}

ok() { pass; tell "$1: OK"; }
differs() { say "$1: differs: $2"; }
refuses() { say "$1: refused: $2"; }

# within WORD..: the command, for at most two minutes of a processor, and ten by the clock: no machine is so busy that a program ends by the first, and what waits for ever ends too
within() { (ulimit -t 120 && exec timeout 600 "$@"); }

emulate() { within qemu-riscv64 "$@"; }

# run_words EXECUTABLE: how most programs are run
run_words() { emulate "$1" one 'two words'; }

# run_machine EXECUTABLE: a program with scripts/real/machine.c on a machine without a system; what it writes comes out of its UART
run_machine() {
    local entry
    entry=$("$sources/image.py" "$1" "$1.image") || return 1
    within qemu-system-riscv64 -machine virt -bios none -m 128M -display none -monitor none -serial stdio -no-reboot \
        -device "loader,file=$1.image,addr=0x80000000,force-raw=on" -device "loader,addr=$(printf '%#x' $((0x80000000 + 0x$entry))),cpu-num=0"
}

# linked NAME OUT OPTIONS WORD..: whether rvld links the files
linked() {
    local name=$1 out=$2 options=$3 status
    shift 3
    # shellcheck disable=SC2086
    timeout "$limit" "$rvld" -o "$out" $options "$@" >told 2>&1
    status=$?
    [ "$status" = 0 ] && [ ! -s told ] && return 0
    refuses "$name" "status $status, $(first_line told)"
    return 1
}

# as_known RUN EXECUTABLE KNOWN: whether it ends with 0 and writes what the file has; else `how` tells what it does
as_known() {
    local status
    "$1" "./$2" >"$2.got" 2>&1
    status=$?
    if [ "$status" != 0 ]; then
        how="it ends with $status: $(tail -n 1 "$2.got" | cut -c 1-200)"
    elif ! cmp -s "$2.got" "$3"; then
        how="it writes $(diff "$3" "$2.got" | sed -n 2,4p | tr '\n' ' ' | cut -c 1-200)"
    else
        return 0
    fi
    return 1
}

# driven NAME KNOWN COMMAND..: a driver's command with scripts/rvld-ld as its linker makes the program `driven`, which is run by run_words
driven() {
    local name=$1 known=$said/$2
    shift 2
    rm -f driven
    if ! "$@" -o driven >told 2>&1; then refuses "$name" "$(first_line told)"; return; fi
    if as_known run_words driven "$known"; then ok "$name"; else differs "$name" "$how"; fi
}

# A copy of libc.a whose member libc-tls.o has a longer .bss: GCC gave it a symbol past the end of that section, which rvld refuses (F09)
mend_glibc() {
    local cc=riscv64-linux-gnu-gcc
    mkdir -p glibc && cd glibc && cp "$($cc -print-file-name=libc.a)" libc.a || return 1
    riscv64-linux-gnu-ar x libc.a libc-tls.o || return 0 # a libc.a without that member is taken as it is
    echo '.bss; .zero 4096' | riscv64-linux-gnu-as -o longer.o - && riscv64-linux-gnu-ld -r -o mended.o libc-tls.o longer.o &&
        mv mended.o libc-tls.o && riscv64-linux-gnu-ar r libc.a libc-tls.o
}

# glibc_words FILE..: sets `words` to what makes a static program on glibc of these files
glibc_words() {
    local cc=riscv64-linux-gnu-gcc
    words=("$($cc -print-file-name=crt1.o)" "$($cc -print-file-name=crti.o)" "$($cc -print-file-name=crtbeginT.o)" "$@"
        "$($cc -print-file-name=libm.a)" glibc/libc.a "$($cc -print-libgcc-file-name)"
        "$($cc -print-file-name=libgcc_eh.a)" "$($cc -print-file-name=crtend.o)" "$($cc -print-file-name=crtn.o)")
}
