#!/bin/sh
# append.sh: what an append costs with the header's checksum by the plain form, crc64::crc64, and by the fast one, as `make bench` measures it
# where the processor is not x86-64. The plain form is put into the module that tools/native keeps: there crc64_fast::crc64_words, which nothing
# calls but operations::sum_of, stores its three words as 24 bytes and does what crc64::crc64 does with them. That module is not proved; the
# benchmark holds its bytes against C by hand.
set -eu
cd "$(dirname "$0")/../.."
tools/native
from=build/native to=build/native/plain
mkdir -p $to
awk '
    /^define .*@"crc64_fast::crc64_words"\(/ {
        print
        print "  %bytes = alloca [24 x i8], align 8"
        print "  store i64 %a0, ptr %bytes, align 8"
        print "  %second = getelementptr i8, ptr %bytes, i64 8"
        print "  store i64 %a1, ptr %second, align 8"
        print "  %third = getelementptr i8, ptr %bytes, i64 16"
        print "  store i64 %a2, ptr %third, align 8"
        print "  %new = call i64 @\"crc64::State::new\"()"
        print "  %more = call i64 @\"crc64::State::more\"(i64 %new, ptr %bytes, i64 24)"
        print "  %sum = call i64 @\"crc64::State::end\"(i64 %more)"
        print "  ret i64 %sum"
        inside = 1
    }
    /^}/ { inside = 0 }
    !inside' $from/module.ll >$to/module.ll
clang=$(dirname "$(rt doc)")/toolchain/bin/clang
# shellcheck disable=SC2046
(cd $to && "$clang" $(sed "s/--target=[^ ]*/--target=$(uname -m)-unknown-linux-gnu/; s/ --sysroot=[^ ]*//; s/ -march=[^ ]*//; s/ module\.bc / module.ll /" ../words))
rm -f $to/libblackboxlog.a
"${clang%/*}/llvm-ar" rcs $to/libblackboxlog.a $to/module.o
BENCH_LIB=$to bench/run >$to/before
BENCH_LIB=$from bench/run >$to/after
echo "| append | bytes | plain, ns | x by hand | fast, ns | x by hand |"
echo "| --- | --- | --- | --- | --- | --- |"
awk -F ' *[|] *' '
    $2 !~ /^append, / || $3 !~ /^[0-9]+$/ { next }
    NR == FNR { before[$2, $3] = $4 " | " $6; next }
    { print "| " substr($2, 9) " | " $3 " | " before[$2, $3] " | " $4 " | " $6 " |" }' $to/before $to/after
