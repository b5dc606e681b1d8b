#!/bin/sh
# Times dates from days and days from dates, through the static library, beside the era algorithm in plain Rust.
set -eu
cd "$(dirname "$0")/.."
mkdir -p target/bench
tools/staticlib.sh dates
rustc -O --edition 2021 -o target/bench/dates bench/dates/main.rs -L native=target/staticlib -l static=dates
target/bench/dates
