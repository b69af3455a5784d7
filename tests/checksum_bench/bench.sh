#!/bin/sh
# bench.sh CODE..: builds the driver with CODE, an archive or object files that have bbl_crc64, bbl_crc64_plain and bbl_crc64_words, and runs
# it. Needs liblzma-dev. With rustc and apt-get at hand the crate `crc` of Debian's librust-crc-dev is measured too: its package is fetched
# into target/ and installed nowhere.
set -eu
here=$(cd "$(dirname "$0")" && pwd -P)
top=$(cd "$here/../.." && pwd -P)
room=$top/target/checksum_bench
[ $# -gt 0 ] || { echo "usage: $0 CODE.." >&2; exit 2; }
for code in "$@"; do
    [ -r "$code" ] || { echo "$0: no file $code" >&2; exit 2; }
done
mkdir -p "$room"

crate() {
    command -v rustc >/dev/null && command -v apt-get >/dev/null || return 1
    registry=$room/usr/share/cargo/registry
    if [ ! -d "$registry" ]; then
        (cd "$room" && apt-get -qq download librust-crc-dev librust-build-const-dev && for p in *.deb; do dpkg -x "$p" .; done) || return 1
    fi
    set -- --edition 2015 -C opt-level=3 --cap-lints allow --cfg 'feature="std"'
    rustc "$@" --crate-type rlib --crate-name build_const "$registry"/build_const-*/src/lib.rs -o "$room/libbuild_const.rlib" &&
        rustc "$@" --extern build_const="$room/libbuild_const.rlib" "$registry"/crc-1*/build.rs -o "$room/build" &&
        (cd "$registry"/crc-1*/ && OUT_DIR=$room "$room/build" >/dev/null) &&
        OUT_DIR=$room rustc "$@" --crate-type rlib --crate-name crc --extern build_const="$room/libbuild_const.rlib" \
            "$registry"/crc-1*/src/lib.rs -o "$room/libcrc.rlib" &&
        rustc -C opt-level=3 --crate-type staticlib --extern crc="$room/libcrc.rlib" -L "$room" "$here/crc_crate.rs" \
            -o "$room/libcrc_crate.a"
}

more=
if crate 2>"$room/crate.log"; then more="-DCRC_CRATE $room/libcrc_crate.a"; else echo "without the crate crc: see $room/crate.log"; fi
machine=
[ "$(uname -m)" != aarch64 ] || machine=-march=armv8-a+crypto
# shellcheck disable=SC2086
cc -O3 $machine "$here/bench.c" "$@" $more -llzma -o "$room/bench"
"$room/bench"
