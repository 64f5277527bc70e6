#!/bin/sh
# Proves and builds both archives, and runs the benchmark of the refreshed
# checksum. With an older librelay_c.a as its argument, forwarding by that one
# is measured beside, in the same run.
set -eu
cd "$(dirname "$0")/../.."
for crate in relay_c crc32c_c; do
    said=$(cd "crates/$crate" && rt lib 2>&1) || { echo "$said"; exit 1; }
done
if [ $# -gt 0 ]; then
    objcopy --redefine-sym relay_forward=before_forward --keep-global-symbol=before_forward \
        "$1" crates/relay_c/out/librelay_before.a
    RUSTFLAGS="--cfg before"
    export RUSTFLAGS
fi
cd host
CARGO_TARGET_DIR="${CARGO_TARGET_DIR:-../target/host}" cargo bench --offline --quiet --bench refresh
