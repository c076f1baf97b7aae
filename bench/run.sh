#!/bin/sh
# run.sh: counts what `session::step`, the Rust of cros-codecs 0.0.6, a plain C++ version and `pool::step` execute for
# each record, and prints the tables of docs/PERFORMANCE.md (README.md says what is needed). All it makes is below
# target/bench.
# Words are handed on to measure.py.
#   CXX_X86     a compiler driver that links static programs for x86-64 (x86_64-linux-gnu-gcc)
#   CARGO_X86   a cargo that builds for x86-64 ($PERF_TOOLS/bin/cargo-x86 where PERF_TOOLS is set, else cargo)
#   QEMU_X86    the emulator with plugins (qemu-x86_64)
#   SLOT        a word to put before what takes a while, as `nice`
set -eu
[ "${1:-}" != --help ] || { sed -n '/^#!/d; /^#/!q; s/^# \{0,1\}//p' "$0"; exit 0; }
here=$(cd "$(dirname "$0")" && pwd -P)
root=$(dirname "$here")
out=$root/target/bench
cxx=${CXX_X86:-x86_64-linux-gnu-gcc}
qemu=${QEMU_X86:-qemu-x86_64}
cargo=${CARGO_X86:-${PERF_TOOLS:+$PERF_TOOLS/bin/cargo-x86}}
mkdir -p "$out"

need() {
  if ! command -v "$1" >/dev/null; then
    echo "run.sh: '$1' is not there: $2 (bench/README.md)" >&2
    exit 2
  fi
}
need rt "the Rattle kit"
need python3 "Python 3"
need cc "a C compiler, for the counting plugin"
need "$qemu" "qemu-user with plugins counts the instructions; QEMU_X86 names it"
need "$cxx" "a C++ compiler for x86-64; CXX_X86 names it"
. "$root/tools/kit.sh"

# logged NAME FOLDER COMMAND..: the command in a folder; what it says goes to a log, whose end is shown where it fails.
# Standard error says what is done, and the log.
logged() {
  log=$out/$1.log
  echo "run.sh: $1, the log is $log" >&2
  folder=$2
  shift 2
  (cd "$folder" && ${SLOT:-} "$@") >"$log" 2>&1 || { tail -n 20 "$log" >&2; exit 1; }
}

plugin() {
  cc -O2 -Wall -fPIC -shared -fvisibility=hidden "$here/count/icount.c" -o "$out/icount.so"
}

# loop CRATE FLAGS..: the loop of that folder beside this file as a proved library, and the driver over it.
loop() {
  crate=$1
  shift
  mkdir -p "$repo/crates/$crate/src"
  cp "$here/$crate/lib.rt.txt" "$repo/crates/$crate/src/lib.rt"
  for proof in "$here/$crate"/*.antt.txt; do
    folder=$repo/crates/$crate/proofs/$(basename "$proof" .antt.txt)
    mkdir -p "$folder"
    cp "$proof" "$folder/Proof.antt"
  done
  logged "$crate" "$repo/crates/$crate" rt lib
  "$cxx" -O2 -static -no-pie -fno-exceptions -fno-rtti "$@" \
    "$here/driver.cpp" "$repo/crates/$crate/out/lib$crate.a" -o "$out/$crate"
}

# The proved libraries: the crates of this repository and the loops of speed/ and pooled/, in a repository of their own,
# since rt takes no Rattle file outside a crate. What is proved already is not proved again. Each loop has a
# library of its own: in one, `session::step_at` would have two callers, and the compiler would make other code of it.
ours() {
  repo=$out/repo
  mkdir -p "$repo/crates"
  grep -v '^replay:' "$root/crates.txt" >"$repo/crates.txt"
  for crate in $(cut -d: -f1 "$repo/crates.txt" | cut -d' ' -f1); do
    rm -rf "$repo/crates/$crate"
    cp -r "$root/crates/$crate" "$repo/crates/$crate"
  done
  echo 'speed staticlib: paper wire format derivation store session' >>"$repo/crates.txt"
  echo 'pooled staticlib: paper wire format derivation store session pool' >>"$repo/crates.txt"
  loop speed
  loop pooled -DPOOLED
}

# The plain version by g++ -O2, and by the kit's own clang as rattle calls it.
plain() {
  "$cxx" -O2 -static -no-pie -fno-exceptions -fno-rtti "$here/driver.cpp" "$here/plain.cpp" -o "$out/plain-gcc"
  "$toolchain/bin/clang" -x c++ --target=x86_64-linux-gnu -march=x86-64 -nostdinc -fno-exceptions -fno-rtti -O3 \
    -c "$here/plain.cpp" -o "$out/plain.o"
  "$cxx" -O2 -static -no-pie -fno-exceptions -fno-rtti "$here/driver.cpp" "$out/plain.o" -o "$out/plain-clang"
}

# The nine files of cros-codecs and the shims of against-rust/, unchanged, with rust/vaapi.rs in the place of its
# harness; as `cargo build --release` does it, without overflow checks.
rust() {
  rm -f "$out/count-rust" "$out/count-rust-least"
  if [ -z "$cargo" ]; then
    cargo=cargo
    if ! rustc --print target-libdir --target x86_64-unknown-linux-gnu 2>/dev/null | xargs -r test -d; then
      echo "run.sh: no Rust for x86-64, so the Rust is left out: set PERF_TOOLS to a folder with bin/cargo-x86," \
        "or CARGO_X86 (bench/README.md)" >&2
      return
    fi
    export CARGO_TARGET_X86_64_UNKNOWN_LINUX_GNU_LINKER="$cxx"
    export CARGO_BUILD_TARGET=x86_64-unknown-linux-gnu
    export RUSTFLAGS="-C target-feature=+crt-static -C relocation-model=static"
  fi
  crate=$out/rust
  "$root/against-rust/assemble.sh" "$crate"
  cp "$here/rust/vaapi.rs" "$crate/src/decoder/stateless/h265/vaapi.rs"
  sed -i -e '/^overflow-checks/d' -e '/^debug-assertions/d' \
    -e 's/^\[features\]$/&\nleast = ["log\/release_max_level_off"]/' "$crate/Cargo.toml"
  for variant in rust rust-least; do
    features=
    if [ $variant = rust-least ]; then
      features='--features least'
      export CARGO_PROFILE_RELEASE_LTO=fat CARGO_PROFILE_RELEASE_CODEGEN_UNITS=1
    fi
    # shellcheck disable=SC2086
    logged $variant "$crate" env CARGO_TARGET_DIR="$out/rust-build" "$cargo" build --release --offline --quiet $features
    cp "$out/rust-build/x86_64-unknown-linux-gnu/release/judge" "$out/count-$variant"
  done
}

# The program, proved and built.
replay() {
  logged replay "$root/crates/replay" rt run </dev/null
  cp "$root/crates/replay/out/replay" "$out/replay"
}

plugin
plain
ours
rust
replay
export TOOLCHAIN="$toolchain" EMULATOR="$emulator"
exec ${SLOT:-} python3 "$here/measure.py" "$qemu" "$@"
