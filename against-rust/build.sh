#!/bin/sh
# build.sh [FOLDER]: puts the crate together (assemble.sh; FOLDER as there) and builds the program `judge`; prints its
# path.
set -eu
[ "${1:-}" != --help ] || { sed -n '/^#!/d; /^#/!q; s/^# \{0,1\}//p' "$0"; exit 0; }
here=$(cd "$(dirname "$0")" && pwd -P)
crate=$here/target/crate
"$here/assemble.sh" "$crate" "$@"
export CARGO_TARGET_DIR="$here/target/build" RUSTFLAGS="-A warnings"
echo "build.sh: builds the Rust and its harness in $crate" >&2
(cd "$crate" && cargo build --release --offline --quiet) >&2
echo "$here/target/build/release/judge"
