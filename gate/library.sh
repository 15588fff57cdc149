# The parts of ./yard that make the library for a target, install it, build programs in C with it and compare it with the second program.
# They use its home, its room for files that do not last, and what it knows of the toolchain.

# What the library is made for: Linux, and bare boards, which have no C library. All have addresses of 64 bits, as the proofs have.
targets='x86_64-linux-gnu aarch64-linux-gnu aarch64-none-elf riscv64-none-elf'

own_target() {
    echo "$(uname -m)-linux-gnu"
}

known_target() { # TARGET
    case " $targets " in *" $1 "*) return ;; esac
    echo "yard: no library is made for '$1'; the targets are:" $targets >&2
    exit 2
}

# The compiler's words for a target. On a bare board no copy is a call of memcpy, and, since its units for floating point and for memory may
# be off, no register of floating point is used and no word is read across its alignment.
words_for() { # TARGET
    no_copies='-mllvm -disable-loop-idiom-memcpy -mllvm -max-store-memcpy=128'
    case $1 in
    *-linux-gnu) echo -fPIC ;;
    aarch64-none-elf) echo -mgeneral-regs-only -mstrict-align $no_copies ;;
    riscv64-none-elf) echo -march=rv64gc -mabi=lp64d -mcmodel=medany $no_copies ;;
    esac
}

# The module that was kept of the library, compiled for a target as the toolchain compiles it for x86-64. What the compiler says is of use where it
# fails: it also says that it does not know the processor x86-64, which the module names.
compile_kept() { # TARGET OBJECT
    "$(dirname "$(rt doc)")/toolchain/bin/clang" --target="$1" $(words_for "$1") -O3 -ffunction-sections -fdata-sections -mllvm -trap-unreachable \
        -mllvm -no-trap-after-noreturn --no-default-config -Wno-override-module -c -x ir "$home/target/kept/yard.bc" -o "$2" \
        2>"$room/said" || { cat "$room/said" >&2 && exit 3; }
}

# The archive is built once by the toolchain, which proves all that it stands on, and once more where the compiler keeps its module. The library's own
# crate holds nothing but the exported functions, since each archive proves it anew.
prove_library() {
    rm -f "$home/crates/yard/out/libyard.a" "$home/target/kept/yard.bc"
    toolchain yard libyard.a lib
    "$home/gate/keep" yard >"$room/said" 2>&1 && [ -s "$home/target/kept/yard.bc" ] || { cat "$room/said" >&2 && exit 3; }
}

# The library that was proved, for a target: the toolchain's own archive, which is for x86-64, or its module compiled.
make_library() { # TARGET ARCHIVE
    rm -f "$2"
    if [ "$1" = x86_64-linux-gnu ]; then
        cp "$home/crates/yard/out/libyard.a" "$2"
    else
        compile_kept "$1" "$room/yard.o"
        "$(dirname "$(rt doc)")/toolchain/bin/llvm-ar" rcs "$2" "$room/yard.o"
    fi
}

# The header, the library for a target and what pkg-config says of them, below a folder.
install_library() { # FOLDER TARGET
    mkdir -p "$1/include" "$1/lib/pkgconfig"
    cp "$home/include/yard.h" "$1/include/yard.h"
    make_library "$2" "$1/lib/libyard.a"
    cp "$home/include/yard.pc" "$1/lib/pkgconfig/yard.pc"
}

# A program in C with the library for this processor, in the room.
build_c() { # FILE
    make_library "$(own_target)" "$room/libyard.a"
    gcc -std=c99 -O2 -Wall -Wextra -static -I"$home/include" -o "$room/$(basename "$1" .c)" "$home/$1" "$room/libyard.a"
}

second_program() {
    second=$home/reference/target/release/reference
    cargo build --quiet --release --offline --manifest-path "$home/reference/Cargo.toml"
}

against_library() {
    "$second" compare "$1" "$2" "$room/library" $3
}

# So many calls by this seed without a difference; then a planted fault, which must be found at its call.
compare_library() { # COUNT SEED
    build_c compare/library.c
    echo "comparing $1 calls on $(uname -m), seed $2"
    against_library "$1" "$2" ""
    planted=$(($1 / 10 + 1))
    status=0
    against_library "$1" "$2" "plant $planted" >"$room/difference" || status=$?
    if [ "$status" -ne 1 ] || ! grep -q "^call $planted differs: " "$room/difference"; then
        echo "yard: the fault planted in call $planted was not found" >&2
        exit 1
    fi
    echo "the fault planted in call $planted was found"
}
