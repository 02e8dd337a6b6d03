#!/bin/sh
# Tries tools/archives and tools/for_arm.py on a crate of its own: structs that C hands over and takes back by value, of 4 to 40 bytes, in registers and on the
# stack, mixed with small numbers; both archives have to say the same, and so has the x86-64 bitcode that tools/for_arm.py said anew for Arm.
# Then bitcode of shapes that are not known, which has to be refused.
# tests/run calls this at the top of the repository.
set -eu
. tools/machine.sh
tools=$PWD/tools
kit=$(dirname "$(rt doc)")
folder=$(mktemp -d)
trap 'rm -rf "$folder"' EXIT
cd "$folder"
mkdir -p crates/by_value/src
echo 'by_value staticlib:' > crates.txt
cat > crates/by_value/src/lib.rt << 'END'
// Structs by value, as C hands them over and takes them back.
#![tactic(auto)]

#[derive(Clone, Copy)]
#[repr(C)]
pub struct Four {
    pub low: u16,
    pub high: u16,
}

#[derive(Clone, Copy)]
#[repr(C)]
pub struct Eight {
    pub number: u32,
    pub byte: u8,
}

#[derive(Clone, Copy)]
#[repr(C)]
pub struct Forty {
    pub first: u64,
    pub second: u64,
    pub third: i32,
    pub byte: u8,
    pub more: u64,
    pub last: u64,
}

#[unsafe(no_mangle)]
pub extern "C" fn small(four: Four, byte: u8, eight: Eight, wide: bool) -> u32 {
    if wide {
        eight.number
    } else if byte > 200 {
        four.high as u32
    } else {
        eight.byte as u32
    }
}

#[unsafe(no_mangle)]
pub extern "C" fn large(byte: u8, forty: Forty, wide: bool, number: i32) -> Forty {
    Forty { first: forty.last, second: forty.first, third: number, byte: if wide { byte } else { forty.byte }, more: forty.more, last: forty.second }
}

#[unsafe(no_mangle)]
pub extern "C" fn many(a: u64, eight: Eight, b: u8, c: i32, d: u64, e: u8, f: u64, g: u64, h: u64, forty: Forty, i: u8, j: u64) -> Eight {
    if a < b as u64 {
        Eight { number: eight.number, byte: i }
    } else if d < e as u64 {
        Eight { number: 7, byte: forty.byte }
    } else if f < g {
        Eight { number: 9, byte: eight.byte }
    } else {
        Eight { number: if h < j { 1 } else { 2 }, byte: b }
    }
}
END
cat > try.c << 'END'
#include <stdbool.h>
#include <stdint.h>
#include <stdio.h>
typedef struct { uint16_t low, high; } four;
typedef struct { uint32_t number; uint8_t byte; } eight;
typedef struct { uint64_t first, second; int32_t third; uint8_t byte; uint64_t more, last; } forty;
uint32_t small(four, uint8_t, eight, bool);
forty large(uint8_t, forty, bool, int32_t);
eight many(uint64_t, eight, uint8_t, int32_t, uint64_t, uint8_t, uint64_t, uint64_t, uint64_t, forty, uint8_t, uint64_t);

int main(void)
{
    const four f = {1, 60000};
    const eight e = {4000000000u, 255};
    const forty l = {1, UINT64_MAX, -3, 128, 6, 5};
    volatile int32_t rest = -1; /* so that the bits above a byte may be anything */
    forty back = large((uint8_t)rest, l, true, INT32_MIN);

    printf("%u %u %u\n", small(f, (uint8_t)rest, e, true), small(f, (uint8_t)rest, e, false), small(f, (uint8_t)(rest - 55), e, false));
    printf("%d %d %d %u %d %d\n", back.first == 5, back.second == 1, back.third == INT32_MIN, back.byte, back.more == 6, back.last == UINT64_MAX);
    back = large(1, l, false, 2);
    printf("%u %d %d\n", back.byte, back.third, l.third);
    for (int i = 0; i < 5; i++) {
        const uint64_t n = (uint64_t)i;
        const eight said = many(n < 1 ? 0 : 200, e, 200, -1, n < 2 ? 0 : 100, 100, 5, n < 3 ? 6 : 5, n, l, 77, 4);
        printf("%u %u\n", said.number, said.byte);
    }
    return 0;
}
END
"$tools/archives" by_value by_value > said 2>&1 || {
    cat said
    echo 'for_arm: the archives are not made'
    exit 1
}

# The bitcode for x86-64, which the kit hands to a clang: here to ours, in a folder of links to the kit's tools. It is said anew, and compiled in the same words
# but for the machine.
mkdir -p toolchain/bin
ln -s "$kit/toolchain/lib" toolchain/lib
ln -s "$kit"/toolchain/bin/* toolchain/bin/
rm toolchain/bin/clang
cat > toolchain/bin/clang << END
#!/bin/sh
for word; do case \$word in *.bc) cp "\$word" '$folder/by_value.bc' && printf '%s\n' "\$@" > '$folder/words' ;; esac; done
exec '$kit/toolchain/bin/clang' "\$@"
END
chmod +x toolchain/bin/clang
(
    cd crates/by_value
    "$kit/bin/rattle" build --crate-name by_value src/lib.rt --extern "std=$kit/rlibs/std.rlib" -L "dependency=$kit/rlibs" \
        --antt-project "$kit/rattle/logic/antt-project.json" --logic-built "$kit/logic_built" --jobs 1 --links by_value= --crate-type staticlib \
        --toolchain "$folder/toolchain" --backend llvm --cpu x86-64 --incremental out/incremental -o "$folder/again.a"
) > said 2>&1 || {
    cat said
    echo 'for_arm: the bitcode is not made'
    exit 1
}
"$kit/toolchain/bin/clang" --target=x86_64-unknown-linux-gnu -x ir by_value.bc -O3 -Xclang -disable-llvm-passes -S -emit-llvm -o x86_64.ll
"$tools/for_arm.py" < x86_64.ll > aarch64.ll
set --
while IFS= read -r word; do
    case $word in
    --target=x86_64-unknown-linux-gnu) word=--target=aarch64-unknown-linux-gnu ;;
    -march=x86-64) continue ;;
    --sysroot=*) continue ;;
    *.bc) word=aarch64.ll ;;
    *.o) word=by_value.o ;;
    esac
    set -- "$@" "$word"
done < words
"$kit/toolchain/bin/clang" "$@" -Wno-override-module -ffp-contract=off
"$kit/toolchain/bin/llvm-ar" rcsD anew.a by_value.o
gcc -std=c11 -O2 -Wall -Wextra -Werror -o here try.c "target/staticlib/$machine/libby_value.a"
"$other_cc" -std=c11 -O2 -Wall -Wextra -Werror -o there try.c "target/staticlib/$other/libby_value.a"
if [ "$machine" = x86_64 ]; then arm_cc=$other_cc arm_run=$other_run; else arm_cc=gcc arm_run=''; fi
"$arm_cc" -std=c11 -O2 -Wall -Wextra -Werror -o anew try.c anew.a
cat > wanted << 'END'
4000000000 60000 255
1 1 1 255 1 1
128 2 -3
4000000000 77
7 128
9 255
1 200
2 200
END
./here > said
diff wanted said
# shellcheck disable=SC2086
$other_run ./there > said
diff wanted said
# shellcheck disable=SC2086
$arm_run ./anew > said
diff wanted said

# WHAT SED-SCRIPT: the module so changed has to be refused.
refuses() {
    sed "$2" x86_64.ll > changed.ll
    if cmp -s x86_64.ll changed.ll; then
        echo "for_arm: $1: nothing was changed"
        exit 1
    fi
    if "$tools/for_arm.py" < changed.ll > said 2>&1; then
        echo "for_arm: $1: not refused"
        exit 1
    fi
}
refuses 'another machine' 's/^target triple = .*/target triple = "i686-unknown-linux-gnu"/'
refuses 'no machine' '/^target triple/d'
refuses 'another layout' 's/-S128"$/-S64"/'
refuses 'a struct in two registers' 's/^\(define .* @small(i32 %a0\),/\1, i64 %a9,/'
refuses 'a struct of 16 bytes in memory' 's/byval(\[40 x i8\])/byval([16 x i8])/'
refuses 'a small struct in memory' 's/^\(define .* @small(\)i32 %a0/\1ptr noundef byval([8 x i8]) align 4 %a0/'
refuses 'a double as an argument' 's/^\(define .* @small(\)/\1double noundef %a9, /'
refuses 'two registers back' 's/^define [^(]* @many(/define { i64, i64 } @many(/'
refuses 'a place handed over otherwise' 's/^\(define .* @large(ptr noundef\) %a0/\1 nonnull %a0/'
refuses 'another pointer back' 's/^  ret ptr %a0$/  ret ptr %a1/'
refuses 'a word of the processor' 's/^start:$/start:\n  call void asm sideeffect "nop", ""()/'
refuses 'an intrinsic' 's/^start:$/start:\n  %z = call double @llvm.fma.f64(double 0.0, double 0.0, double 0.0)/'
refuses 'loose arithmetic' 's/^start:$/start:\n  %z = fadd contract double 0.0, 0.0/'
refuses 'an instruction that is not known' 's/^start:$/start:\n  fence seq_cst/'
refuses 'a function of C' 's/^declare .*/declare i32 @puts(ptr)/'
refuses 'a variable' 's/^source_filename.*/&\n@kept = global i32 0/'
refuses 'a processor with more' 's/"target-cpu"="x86-64"/& "target-features"="+avx2"/'
echo 'for_arm: structs by value are the same in both archives, and in the bitcode said anew; 17 modules of shapes that are not known are refused'
