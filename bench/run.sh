#!/usr/bin/env bash
# Builds the program and its plain Rust version, and times both on the big scripts. The words go to bench/timing.py:
# bench/run.sh [--runs N] [--sizes] [--null] [KIND..]
set -eu
cd "$(dirname "${BASH_SOURCE[0]}")/.."
(cd crates/nusb_sim && rt run < stdin > /dev/null)
cargo build --quiet --release --offline --manifest-path bench/plain/Cargo.toml
exec bench/timing.py crates/nusb_sim/out/nusb_sim "${CARGO_TARGET_DIR:-bench/plain/target}/release/nusb_sim_plain" "$@"
