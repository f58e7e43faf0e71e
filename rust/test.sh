#!/usr/bin/env bash
# The Rust tests, for release and offline. They need the proved library: `rt lib` in crates/exchange writes it to
# crates/exchange/out, or EXCHANGE_LIB_DIR names the folder that has it.
set -euo pipefail
cd "$(dirname "$0")"
library="${EXCHANGE_LIB_DIR:-../crates/exchange/out}/libexchange.a"
if [[ ! -f $library ]]; then
    echo "rust/test.sh: $library is missing: run \`rt lib\` in crates/exchange" >&2
    exit 1
fi
# the layout of the code, where the toolchain has its formatter
if cargo fmt --version >/dev/null 2>&1; then
    cargo fmt --check
fi
# the wrapper without a heap
cargo check --release --offline --package exchange --no-default-features
cargo test --release --offline --workspace
