# Read by scripts that have a folder of their own, $work. What the Rattle kit makes is for x86-64, on every processor: C is compiled for it here, and programs for it are run.
# On x86-64 gcc compiles, and programs run as they are. On another processor clang compiles; the kit, found by `rt`, has the linker, the C library and an emulator.
#   compile PROGRAM FILE..    a program, of C files, archives and -lm; the array $flags goes to the compiler, which is $compiler
#   object FILE.o FILE.c      an object of a C file, for programs and shared libraries
#   share FILE.so NAME ARCHIVE FILE.o..    a shared library of this name, of an archive, whole, and objects; nothing may be left to be found later, and no place in the code to be changed
#   run PROGRAM WORD..        runs it
#   starter PROGRAM           prints the path of a command that runs it: its own, or that of a script in $work
#   disassemble FILE          prints its instructions, by $disassembler
flags=()

if [ "$(uname -m)" = x86_64 ]; then
    compiler=gcc
    disassembler=objdump
    compile() { "$compiler" "${flags[@]}" -Iinclude -o "$@"; }
    object() { "$compiler" "${flags[@]}" -fPIC -Iinclude -c -o "$1" "$2"; }
    share() {
        local made=$1 name=$2 archive=$3
        shift 3
        "$compiler" -shared -Wl,-soname,"$name" -Wl,-z,defs -Wl,-z,text -o "$made" "$@" -Wl,--whole-archive "$archive" -Wl,--no-whole-archive
    }
    run() { "$@"; }
    starter() { readlink -f "$1"; }
else
    compiler=clang
    disassembler=x86_64-linux-gnu-objdump
    command -v $disassembler >/dev/null 2>&1 || disassembler=llvm-objdump
    kit=${RATTLE_HOME:-$(dirname "$(dirname "$(readlink -f "$(command -v rt)")")")}/on/$(uname -m)
    emulator=("$kit/toolchain/bin/qemu-x86_64" -cpu max)
    loader=("$kit/toolchain/lib/ld-linux-x86-64.so.2" --library-path "$kit/toolchain/lib")
    compile() {
        local program=$1 file made=()
        shift
        for file in "$@"; do
            [ "$file" != -lm ] || continue # the kit's linker has it always
            if [[ $file == *.c ]]; then
                object "$work/$(basename "$file").o" "$file" || return 1
                file=$work/$(basename "$file").o
            fi
            made+=("$file")
        done
        "$kit/bin/rattle-link" --target x86_64-unknown-linux-gnu --toolchain "$kit/toolchain" -o "$program" "${made[@]}" >"$work/linked" 2>&1 || { cat "$work/linked"; return 1; }
    }
    object() { clang --target=x86_64-linux-gnu -isystem "/usr/include/$(uname -m)-linux-gnu" "${flags[@]}" -fPIC -Iinclude -c -o "$1" "$2"; }
    share() {
        local made=$1 name=$2 archive=$3 lib=$kit/toolchain/lib
        shift 3
        "$kit/toolchain/bin/ld.lld" -shared -soname "$name" --eh-frame-hdr -z defs -z text -o "$made" "$lib/crti.o" "$lib/crtbeginS.o" "$@" --whole-archive "$archive" --no-whole-archive \
            "$lib/libc.so.6" "$lib/libc_nonshared.a" "$lib/libgcc.a" "$lib/crtendS.o" "$lib/crtn.o"
    }
    for_x86_64() { [[ $(od -An -v -tx1 -N20 "$1" 2>/dev/null | tr -d ' \n') == 7f454c46*3e00 ]]; } # by its ELF header; a script, or a program for this processor, runs as it is
    run() {
        for_x86_64 "$1" || { "$@"; return; }
        [ -x "${emulator[0]}" ] || { echo "running a program for x86-64 on $(uname -m) needs the Rattle kit, 'rt' on the path (README.md, 'What must be installed')" >&2; return 1; }
        "${emulator[@]}" "${loader[@]}" "$@"
    }
    starter() {
        local program script
        program=$(readlink -f "$1")
        script=$work/$(basename "$1").start
        for_x86_64 "$program" || { echo "$program"; return; }
        { echo '#!/bin/sh'; printf 'exec'; printf " '%s'" "${emulator[@]}" "${loader[@]}" "$program"; echo ' "$@"'; } >"$script"
        chmod +x "$script"
        echo "$script"
    }
fi

disassemble() { "$disassembler" -d --no-show-raw-insn "$1"; }
