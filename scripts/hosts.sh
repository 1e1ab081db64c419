#!/bin/sh
# hosts.sh: builds the static library, the hosts in C and in Rust, and the benchmark, and holds the two hosts to each other: the
# same commands with the same files, the worklist's and ten thousand moves that retire as they go. Nothing of it is part of the gate.
set -eu
cd "$(dirname "$0")/.."
(cd crates/host_c && rt lib)
mkdir -p target/staticlib
cp crates/host_c/out/libhost_c.a target/staticlib/libhost.a
make -C hosts/c
cargo build --release --offline --manifest-path hosts/rust/Cargo.toml
make -C hosts/c check-same
cargo build --release --offline --manifest-path bench/Cargo.toml
