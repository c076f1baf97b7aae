#!/bin/sh
# embed/test.sh [--install]
#
# Tests what a host in C or Rust uses. It builds the archive, links it into the monitor, the tests of kept sessions and
# of the pool and the example of docs/INTEGRATING.md (C), and into the tests of the Rust crate, and runs them for x86-64
# on every recording of recordings/vectors, recordings/examples and recordings/pool; on another processor through an
# emulator. trusshemp_wire.h, which needs no archive, is tested by a program for this machine, under the compiler's
# sanitizers where it has them. The status is 1 where anything differs.
#
# It does not change the machine: a step whose compiler is not there says 'skipped: WHAT: WHY', and the status stays 0.
# To install what is lacking (by apt-get, as root, and rustup; Debian's Rust is unpacked beside, in the user's cache) it
# must be asked: by --install, by TRUSSHEMP_INSTALL=1, or by a variable CI that is set and not empty, as services for
# continuous integration set it. So .ci/run needs no option of its own: it installs in such a service, and elsewhere
# where TRUSSHEMP_INSTALL=1 says so.
set -eu

usage() {
  sed -n '2,/^set -eu$/s/^# \{0,1\}//p' "$0"
}

asked=
if [ -n "${CI:-}" ] || [ "${TRUSSHEMP_INSTALL:-}" = 1 ]; then asked=yes; fi
case $#:${1:-} in
  0:) ;;
  1:--install) asked=yes ;;
  1:--help | 1:-h) usage; exit 0 ;;
  *) echo "embed/test.sh: takes --install, or --help" >&2; exit 2 ;;
esac

root=$(cd "$(dirname "$0")/.." && pwd -P)
cd "$root"
work=$root/target/embed
target=x86_64-unknown-linux-gnu
rm -rf "$work"
mkdir -p "$work/calls" "$work/lib"

quietly() {
  if ! "$@" >"$work/log" 2>&1 </dev/null; then
    tail -n 40 "$work/log" >&2
    echo "failed: $*" >&2
    exit 1
  fi
}

apt() {
  [ "$(id -u)" = 0 ] && command -v apt-get >/dev/null &&
    DEBIAN_FRONTEND=noninteractive timeout 180 apt-get -q "$@" >>"$work/apt.log" 2>&1 </dev/null
}

# packages, where it is asked for, with the lists of packages made new where they can't be had at once
install() {
  [ -n "$asked" ] || return 1
  apt install -y --no-install-recommends "$@" || { apt update && apt install -y --no-install-recommends "$@"; }
}

# skip WHAT WHY: a step that can't run here
skip() {
  if [ -n "$asked" ]; then tried="and it could not be installed"; else tried="embed/test.sh --install installs it"; fi
  echo "skipped: $1: $2 ($tried)"
}

. tools/kit.sh
if [ "$(uname -m)" = x86_64 ]; then cc=cc; else cc=x86_64-linux-gnu-gcc; fi

# ---- Rust for x86-64: the one that is there, or rustup's, or Debian's, unpacked beside
has_std() {
  libraries=$("$1" --print target-libdir --target "$target" 2>/dev/null) &&
    ls "$libraries"/libstd-*.rlib >/dev/null 2>&1
}

debian_rust() {
  rust=${XDG_CACHE_HOME:-${HOME:-/tmp}/.cache}/trusshemp/rust
  if [ ! -x "$rust/rustc" ]; then
    [ -n "$asked" ] || return 1
    dpkg --add-architecture amd64 && apt update || return 1
    rm -rf "$rust" && mkdir -p "$rust/packages" || return 1
    std=$(apt-cache depends libstd-rust-web-dev | sed -n 's/.*Depends: \(libstd-rust-web-[0-9.]*\)$/\1/p')
    llvm=$(apt-cache depends "$std" | sed -n 's/.*Depends: \(libllvm[0-9]*\)$/\1/p')
    packages="rustc-web libstd-rust-web-dev $std $llvm libstd-rust-web-dev:amd64"
    # shellcheck disable=SC2086
    (cd "$rust/packages" && apt download $packages) || return 1
    for package in "$rust"/packages/*.deb; do dpkg -x "$package" "$rust" || return 1; done
    rm -r "$rust/packages"
    libraries=$rust/usr/lib/$(uname -m)-linux-gnu
    printf '#!/bin/sh\nLD_LIBRARY_PATH=%s exec %s "$@"\n' "$libraries" "$rust/usr/bin/rustc" >"$rust/rustc"
    chmod +x "$rust/rustc"
  fi
  has_std "$rust/rustc" && RUSTC=$rust/rustc
}

find_rust() {
  RUSTC=${RUSTC:-rustc}
  has_std "$RUSTC" && return 0
  [ -n "$asked" ] &&
    command -v rustup >/dev/null && timeout 120 rustup target add "$target" >>"$work/rustup.log" 2>&1 &&
    has_std "$RUSTC" && return 0
  debian_rust
}

# ---- the archive, and what is expected
quietly python3 embed/calls.py "$work/calls"
echo "embed: rt lib in crates/embed, which proves what has changed"
archive=$root/crates/embed/out
(cd crates/embed && quietly rt lib)

# ---- C, for this machine: trusshemp_wire.h
wire() {
  quietly "$native" -std=c99 -pedantic -O1 -g -Wall -Wextra -Werror "$@" -I embed embed/test_wire.c -o "$work/test_wire"
}

# the headers by themselves, in C++ too
if command -v c++ >/dev/null; then
  quietly c++ -x c++ -std=c++11 -pedantic -Wall -Wextra -Werror -fsyntax-only embed/trusshemp_wire.h
else
  echo "skipped: the headers in C++: no C++ compiler"
fi

native=cc
sanitizers="-fsanitize=address,undefined -fno-sanitize-recover=all"
command -v "$native" >/dev/null || install gcc libc6-dev || true
if command -v "$native" >/dev/null; then
  echo 'int main(void) { return 0; }' >"$work/empty.c"
  # shellcheck disable=SC2086
  if "$native" $sanitizers "$work/empty.c" -o "$work/empty" >/dev/null 2>&1 && "$work/empty" >/dev/null 2>&1; then
    wire $sanitizers
  else
    echo "wire: without sanitizers, which $native has not here: a byte read past a reply's end would not be seen"
    wire
  fi
  python3 embed/test_wire.py "$work/test_wire"
else
  skip "the test of trusshemp_wire.h" "no C compiler"
fi

# ---- C, for x86-64
# build NAME [FILE..]: the program NAME of embed/NAME.c and further files
build() {
  program=$work/$1
  sources=
  for name in "$@"; do sources="$sources embed/$name.c"; done
  # shellcheck disable=SC2086
  quietly "$cc" -std=c11 -O2 -Wall -Wextra -Werror -static -I embed $sources "$archive/libembed.a" -o "$program"
}

# what a program built here says; what it says on standard error goes to a file, and is shown where it fails
run_built() {
  name=$1
  shift
  if ! ${emulator:+"$emulator"} "$work/$name" "$@" 2>"$work/$name.log"; then
    tail -n 40 "$work/$name.log" >&2
    echo "failed: $name" >&2
    exit 1
  fi
}

# the example of docs/INTEGRATING.md: that it compiles, and prints what stands below it
run_example() {
  sed -n '/^\/\* example\.c/,/^```$/p' docs/INTEGRATING.md | sed '$d' >"$work/example.c"
  sed -n '/^    host\$ \.\/example$/,/^$/s/^    //p' docs/INTEGRATING.md | sed 1d >"$work/example.expected"
  quietly "$cc" -std=c99 -pedantic -O2 -Wall -Wextra -Werror -static -I embed "$work/example.c" "$archive/libembed.a" \
    -o "$work/example"
  run_built example >"$work/example.said"
  quietly diff "$work/example.expected" "$work/example.said"
  echo "example: docs/INTEGRATING.md, $(wc -l <"$work/example.c") lines; prints what it says"
}

if ! command -v "$cc" >/dev/null && [ "$cc" != cc ]; then
  install gcc-x86-64-linux-gnu libc6-dev-amd64-cross || true
fi
if command -v "$cc" >/dev/null; then
  build monitor monitor_sessions monitor_devices
  run_built monitor "$work"/calls/*.calls
  build test_keep
  run_built test_keep "$work"/calls/*.calls "$work"/calls/*.pool
  build test_pool
  run_built test_pool "$work"/calls/*.pool
  run_example
else
  skip "the programs in C" "no C compiler for x86-64"
fi

# ---- Rust. On another processor Debian's emulator runs the tests: the kit's stops where Rust's start-up reads
# /proc/self/maps
runner=
if [ "$cc" != cc ]; then
  command -v qemu-x86_64 >/dev/null || install qemu-user || true
  runner=$(command -v qemu-x86_64) || true
fi

# what the tests of the last run of cargo said
rust_said() {
  awk '/ Running / { name = $2 }
       / Doc-tests / { name = "the documentation" }
       /^test result: .* [1-9][0-9]* passed/ { print "rust: " name ": " substr($0, 14) }' "$work/log"
}

cargo_test() {
  quietly cargo test --manifest-path embed/rust/Cargo.toml --offline --locked "$@"
  rust_said
}

# skip_rust WHY: the Rust crate without the archive. Records and replies need none, and are tested for this processor
skip_rust() {
  skip "sessions and pools in the Rust crate" "$1"
  if [ "$cc" != cc ] && command -v cc >/dev/null; then
    CARGO_TARGET_DIR="$work/rust" cargo_test --test records --test replies
  fi
}

if ! command -v cargo >/dev/null; then
  echo "skipped: the Rust crate: no cargo"
elif ! command -v "$cc" >/dev/null; then
  skip_rust "no linker for x86-64"
elif [ "$cc" != cc ] && [ -z "$runner" ]; then
  skip_rust "no emulator that runs Rust programs"
elif ! find_rust; then
  skip_rust "no Rust library for $target"
else
  # Debian's libm.a for another processor names files of that processor's own folders: a right one, which the linker
  # finds first
  if [ "$cc" != cc ]; then
    echo "GROUP ( $(ls /usr/x86_64-linux-gnu/lib/libm-*.a) /usr/x86_64-linux-gnu/lib/libmvec.a )" >"$work/lib/libm.a"
  fi
  export RUSTC TRUSSHEMP_LIB="$archive" TRUSSHEMP_CALLS="$work/calls"
  export CARGO_TARGET_DIR="$work/rust" CARGO_BUILD_TARGET="$target"
  export CARGO_TARGET_X86_64_UNKNOWN_LINUX_GNU_LINKER="$cc"
  flags="-C target-feature=+crt-static -C relocation-model=static -L native=$work/lib"
  export CARGO_TARGET_X86_64_UNKNOWN_LINUX_GNU_RUSTFLAGS="$flags"
  [ -z "$runner" ] || export CARGO_TARGET_X86_64_UNKNOWN_LINUX_GNU_RUNNER="$runner"
  # the examples of the documentation too, where rustdoc is of the compiler's version: Debian's stands beside its rustc
  if [ "$RUSTC" = "${rust:-}/rustc" ]; then
    sed 's,/usr/bin/rustc ,/usr/bin/rustdoc ,' "$RUSTC" >"$work/rustdoc"
    chmod +x "$work/rustdoc"
    export RUSTDOC="$work/rustdoc"
  fi
  export CARGO_TARGET_X86_64_UNKNOWN_LINUX_GNU_RUSTDOCFLAGS="$flags"
  version() { "$1" --version 2>/dev/null | cut -d ' ' -f 2; }
  all=--tests
  [ "$(version "${RUSTDOC:-rustdoc}")" != "$(version "$RUSTC")" ] || all=
  cargo_test ${all:+"$all"}
fi
