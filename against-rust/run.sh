#!/bin/sh
# run.sh [FOLDER]: the whole comparison. Builds the harness around the nine files (build.sh; FOLDER as there), judges
# the generated recordings against the model and the program `replay`, runs every difference of docs/DIFFERENCES.md
# against the Rust, and asks the Rust whether recordings/from-rust is its own.
# $PROGRAM is the command that answers records; without it, the proved `replay` of this repository. $SCALE (1)
# multiplies the number of recordings.
set -eu
[ "${1:-}" != --help ] || { sed -n '/^#!/d; /^#/!q; s/^# \{0,1\}//p' "$0"; exit 0; }
here=$(cd "$(dirname "$0")" && pwd -P)
root=$(dirname "$here")
judge=$("$here/build.sh" "$@")
if [ -z "${PROGRAM:-}" ]; then
  "$root/run" replay </dev/null
  # what ./run starts, without its check at each of some thousand starts
  . "$root/tools/kit.sh"
  PROGRAM="$emulator $root/crates/replay/out/replay"
fi
python3 "$here/judge.py" "$judge" --program "$PROGRAM" --scale "${SCALE:-1}"
python3 "$here/differences.py" "$judge"
python3 "$here/write_sample.py" "$judge" --check
