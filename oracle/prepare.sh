#!/bin/sh
# Puts the original's files, unchanged, beside the stand-ins into build/ and builds the driver target/release/oracle.
# The files stand in ../shared/docs/src/src beside the repository, or in the folder that MARBLE_SRC names, by its whole path or from the
# repository. Ends with 2 where they are not there; a MARBLE_SRC without them is an error, 1.
set -eu
cd "$(dirname "$0")/.."
src=${MARBLE_SRC-../shared/docs/src/src} without=2
[ -z "${MARBLE_SRC+set}" ] || without=1
refuse() { echo "oracle: $1, the original cannot be built${MARBLE_SRC+ (MARBLE_SRC is '$MARBLE_SRC')}" >&2; exit "$without"; }
command -v cargo >/dev/null || refuse "no cargo"
files='disk_location file_map gc lib location_table readpath recovery trailer writepath'
for f in $files; do
    [ -f "$src/$f.rs" ] || refuse "$src/$f.rs is not there"
done
src=$(cd "$src" && pwd)
cd oracle
rm -rf build Cargo.lock
mkdir -p build
cp -R marble build/marble
for f in $files; do
    cp "$src/$f.rs" "build/marble/src/$f.rs"
    cmp "$src/$f.rs" "build/marble/src/$f.rs"
done
CARGO_TARGET_DIR=target cargo build --release --offline --quiet
echo "oracle: built from the original's files, unchanged"
