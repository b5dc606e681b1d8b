#!/bin/sh
# Times the next occurrence of every second Friday since 2000, asked in 2199: through the static library, by a loop over
# the weeks in plain Rust, and by python-dateutil where it is installed.
set -eu
cd "$(dirname "$0")/.."
mkdir -p target/bench
tools/staticlib.sh recurrence
rustc -O --edition 2021 -o target/bench/days bench/days/main.rs -L native=target/staticlib -l static=recurrence
target/bench/days
if python3 -c 'import dateutil' 2> /dev/null; then
    python3 bench/days/after.py
else
    echo "python-dateutil is not installed"
fi
