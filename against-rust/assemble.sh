#!/bin/sh
# assemble.sh CRATE [FOLDER]: makes the folder CRATE: the nine files of cros-codecs 0.0.6, unchanged, beside the shims
# and the harness. FOLDER (or $CROS_CODECS) holds src/**.rs.txt; without it the copy in against-rust/cros-codecs is
# taken. Their checksums must be those of SHA256SUMS.
set -eu
[ "${1:-}" != --help ] || { sed -n '/^#!/d; /^#/!q; s/^# \{0,1\}//p' "$0"; exit 0; }
here=$(cd "$(dirname "$0")" && pwd -P)
crate=$1
from=${2:-${CROS_CODECS:-$here/cros-codecs}}
if [ ! -d "$from/src" ]; then
  echo "assemble.sh: no src/ in '$from': give the folder with the nine files of cros-codecs 0.0.6" >&2
  exit 2
fi
(cd "$from" && sha256sum --quiet -c "$here/cros-codecs/SHA256SUMS") >&2
rm -rf "$crate"
mkdir -p "$(dirname "$crate")"
cp -r "$here/crate" "$crate"
(cd "$from" && find src -name '*.rs.txt') | while read -r file; do
  cp "$from/$file" "$crate/${file%.txt}"
  cmp "$from/$file" "$crate/${file%.txt}"
done
