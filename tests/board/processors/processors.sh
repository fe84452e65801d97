# How a C program is compiled for a processor of tools/build, and run here; sourced by scripts that have a function `say` and a folder `work`. This
# machine's own processor needs no emulator. A Debian package that is missing is installed where that can be done.
top=$(cd "$(dirname "${BASH_SOURCE[0]}")/../../.." && pwd) || exit 2
machine=$(uname -m)
other=aarch64
[ "$machine" = x86_64 ] || other=x86_64
boards=(cortex-m0 cortex-m3 cortex-m4 cortex-m4f)

# for_processor NAME: `compiles` is what C is compiled by, `library` what it is linked with, `emulator` what runs it; they come from `packages`.
for_processor() {
    local here=$top/tests/board/processors word
    library=("$top/target/board/$1/libmuktrashi.a") emulator=()
    case $1 in
    "$machine") compiles=(gcc) packages=(gcc libc6-dev) ;;
    aarch64) compiles=(aarch64-linux-gnu-gcc -static) emulator=(qemu-aarch64) packages=(gcc-aarch64-linux-gnu libc6-dev-arm64-cross qemu-user) ;;
    x86_64) compiles=(x86_64-linux-gnu-gcc -static) emulator=(qemu-x86_64) packages=(gcc-x86-64-linux-gnu libc6-dev-amd64-cross qemu-user) ;;
    wasm32)
        compiles=(clang --target=wasm32-wasi -O2 -nodefaultlibs -lc '-Wl,--import-memory,--allow-undefined,--global-base=131072')
        library=() # wasm.mjs has the module
        emulator=(node --no-warnings "$here/wasm.mjs" "$top/target/board/wasm32/muktrashi.wasm")
        packages=(nodejs clang lld wasi-libc)
        ;;
    cortex-*)
        case $1 in
        cortex-m0) word=microbit compiles=(-mcpu=cortex-m0) ;;
        cortex-m3) word=mps2-an385 compiles=(-mcpu=cortex-m3) ;;
        cortex-m4) word=mps2-an386 compiles=(-mcpu=cortex-m4 -mfloat-abi=soft) ;;
        cortex-m4f) word=mps2-an386 compiles=(-mcpu=cortex-m4 -mfloat-abi=hard -mfpu=fpv4-sp-d16) ;;
        esac
        # newlib's errno says nothing of its stack, of which the linker would warn.
        compiles=(arm-none-eabi-gcc -mthumb "${compiles[@]}" -Os --specs=rdimon.specs -nostartfiles -Wl,-z,noexecstack)
        compiles+=(-T "$here/cortex-m.ld" "$here/cortex-m.c")
        emulator=(qemu-system-arm -M "$word" -display none -monitor none -serial none -semihosting-config 'enable=on,target=native' -kernel)
        packages=(gcc-arm-none-eabi libnewlib-arm-none-eabi qemu-system-arm)
        ;;
    esac
}

# builds SOURCE PROGRAM WORD..: C with every warning an error.
builds() {
    local source=$1 program=$2
    shift 2
    "${compiles[@]}" -std=c99 -pedantic -Wall -Wextra -Werror -I"$top/include" "$source" "$@" -o "$program"
}

# runs PROGRAM WORD..: in the folder `work`. An emulated program that does not end is ended.
runs() {
    (cd "$work" && timeout 120 "${emulator[@]}" "$@")
}

# Whether C is compiled for the processor, and there is what runs it.
there_is_c() {
    printf '#include <stdio.h>\nint main(void) { return puts("") < 0; }\n' >"$work/nothing.c"
    builds "$work/nothing.c" "$work/nothing" >"$work/log" 2>&1 && { [ "${#emulator[@]}" -eq 0 ] || command -v "${emulator[0]}" >/dev/null 2>&1; }
}

# install PACKAGE..: from Debian's archive, as root.
install() {
    [ "$(id -u)" -eq 0 ] && command -v apt-get >/dev/null 2>&1 || return 1
    say "installing $*"
    export DEBIAN_FRONTEND=noninteractive
    apt-get install -y --no-install-recommends "$@" >"$work/log" 2>&1 ||
        { apt-get update && apt-get install -y --no-install-recommends "$@"; } >"$work/log" 2>&1
}

# needs TEST WHAT PACKAGE..: whether something is there, or can be got; without it WHAT does not run, and that is said.
needs() {
    local test=$1 what=$2
    shift 2
    "$test" && return 0
    install "$@" && "$test" && return 0
    say "warning: NOT RUN: $what; it needs the Debian packages $*, which are not here and cannot be installed"
    return 1
}
