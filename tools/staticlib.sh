#!/bin/sh
# Proves and builds the static library for C of a crate, as target/staticlib/libNAME.a: tools/staticlib.sh NAME
set -eu
cd "$(dirname "$0")/.."
mkdir -p target/staticlib
log=target/staticlib/$1.log
(cd "crates/$1_c" && rt lib) >"$log" 2>&1 || { cat "$log"; exit 1; }
cp "crates/$1_c/out/lib$1_c.a" "target/staticlib/lib$1.a"
