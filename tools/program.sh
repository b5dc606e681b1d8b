#!/bin/sh
# Proves and builds a program, as target/bin/NAME: tools/program.sh NAME
set -eu
cd "$(dirname "$0")/.."
mkdir -p target/bin
log=target/$1.log
# a program is built as it is run; with no argument and no input it ends at once
(cd "crates/$1" && rm -f "out/$1" && rt run </dev/null) >"$log" 2>&1 || true
[ -x "crates/$1/out/$1" ] || { cat "$log"; echo "$1 was not built; $log says why" >&2; exit 1; }
cp "crates/$1/out/$1" "target/bin/$1"
