#!/bin/sh
# Times one step of the house on commands that it refuses, through the static library, beside a plain Rust parser of the same format.
set -eu
cd "$(dirname "$0")/.."
mkdir -p target/bench
tools/staticlib.sh engine
rustc -O --edition 2021 -o target/bench/step bench/step/main.rs -L native=target/staticlib -l static=engine
target/bench/step
