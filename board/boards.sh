# boards.sh - the boards that the scripts here know, and how a program for one is built. To be read by `.` where `here`
# is this folder and `build` one to build in.
top=$here/..
. "$top/host/kit.sh"
boards="cortex-m4 cortex-m0plus riscv32 aarch64 armeb"
mps2="qemu-system-arm -nographic -monitor none -serial none -semihosting-config enable=on,target=native"

# board NAME: leaves the board's triple and processor, the linker's words for it, and the emulator's.
board() {
    cpu= link="-e _start"
    case $1 in
    cortex-m4) triple=thumbv7em-none-eabi cpu=-mcpu=$1 link="-T $here/mps2.ld" machine="$mps2 -M mps2-an386 -kernel" ;;
    cortex-m0plus) triple=thumbv6m-none-eabi cpu=-mcpu=$1 link="-T $here/mps2.ld" machine="$mps2 -M mps2-an385 -kernel" ;;
    riscv32) triple=riscv32-unknown-none-elf machine=qemu-riscv32 ;;
    aarch64) triple=aarch64-none-elf machine=qemu-aarch64 ;;
    armeb) triple=armebv7r-none-eabi cpu=-mcpu=cortex-r5 link="-e _start --be8" machine=qemu-armeb ;;
    *) echo "there is no board $1; there are $boards" >&2 && exit 1 ;;
    esac
    compiled="$tools/clang --target=$triple $cpu --no-default-config"
}

# compile NAME SOURCE [WORD..]: makes an object of C for the board, with the kit's clang.
compile() {
    object=$1 source=$2
    shift 2
    $compiled -nostdlibinc -isystem "$(gcc -print-file-name=include)" -I"$here/include" -I"$here" -I"$top/include" \
        -I"$top/host" -std=gnu11 -Wall -Wextra -Wshadow -Werror -O2 -ffreestanding -fno-pic "$@" -c "$source" \
        -o "$build/$object.o"
}

# link PROGRAM OBJECT..: makes a program for the board.
link() {
    program=$1
    shift
    "$tools/ld.lld" $link "$@" -o "$build/$program"
}
