#!/bin/sh
# What the station and the board do with files that are missing, too short or unequal: sh tests/files.sh
set -eu
top=$(cd "$(dirname "$0")/.." && pwd)
bin=$top/target/bin
"$top/tools/program.sh" station
"$top/tools/program.sh" board
folder=$(mktemp -d)
trap 'rm -rf "$folder"' EXIT
cd "$folder"
failed=0

# expect NAME TEXT COMMAND...: the first line that the command writes is TEXT, and it ends well
expect() {
    name=$1 text=$2
    shift 2
    if ! "$@" </dev/null >out 2>&1; then
        echo "$name: status is not 0" && failed=1
    fi
    line=$(head -n 1 out)
    if [ "$line" != "$text" ]; then
        printf '%s:\n  expected %s\n  found    %s\n' "$name" "$text" "$line" && failed=1
    fi
}

size() { wc -c <"$1" | tr -d ' '; }

same() {
    if [ "$2" != "$3" ]; then
        echo "$1: expected $3, found $2" && failed=1
    fi
}

expect "too few pages" "a house has 256 to 1048576 pages, and not 255" "$bin/station" a b 255
same "nothing is made" "$(ls a b 2>/dev/null | wc -l | tr -d ' ')" 0
expect "no number" "many is no number of pages" sh -c '"$0" a b many | sed "s/; .*//"' "$bin/station"
expect "new" "a and b are new" "$bin/station" a b 256
same "256 pages" "$(size a) $(size b)" "131072 131072"
expect "again" "power, 256 pages: done" "$bin/station" a b 512
rm b
expect "second lost" "b was missing: a blank one stands in its place, as for a device that was lost" "$bin/station" a b
same "as long as the first" "$(size b)" 131072
rm a
expect "first lost" "a was missing: a blank one stands in its place, as for a device that was lost" "$bin/station" a b
same "as long as the second" "$(size a)" 131072
expect "4096 where nothing is said" "c and d are new" "$bin/station" c d
same "4096 pages" "$(size c)" 2097152
expect "unequal" "the files have 131072 and 2097152 bytes, and should be equally long; nothing is touched" "$bin/station" a d
same "left alone" "$(size a) $(size d)" "131072 2097152"
printf 'short' >e
expect "short" "e has 5 bytes: a side has 256 to 1048576 pages of 512 bytes; nothing is touched" "$bin/station" a e
expect "short and none" "e has 5 bytes: a side has 256 to 1048576 pages of 512 bytes; nothing is touched" "$bin/station" e f
same "no second" "$(ls f 2>/dev/null | wc -l | tr -d ' ')" 0
expect "usage" "station FIRST SECOND [PAGES]" sh -c '"$0" | sed "s/:.*//"' "$bin/station"
expect "board's usage" "board FIRST SECOND PERSON FROM TO [ZONE...]" sh -c '"$0" a b | sed "s/:.*//"' "$bin/board"
expect "no house" "f is missing: there is no house to list; the station makes one" "$bin/board" a f 0 2026-03-23 2026-03-30
expect "no sides" "the files are not the two sides of a house: 256 to 1048576 pages of 512 bytes each, and equally many" "$bin/board" a d 0 2026-03-23 2026-03-30
expect "no date" "2026-02-30: no date: the month has no such day" "$bin/board" a b 0 2026-02-30 2026-03-30
expect "no zone" "a zone is a number of minutes east, -720 to 840" "$bin/board" a b 0 2026-03-23 2026-03-30 900
expect "no person" "Ann is no person's number" "$bin/board" a b Ann 2026-03-23 2026-03-30

if [ "$failed" = 0 ]; then
    echo "files: all as expected"
fi
exit "$failed"
