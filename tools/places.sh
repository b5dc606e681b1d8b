#!/bin/sh
# Lists the places that docs/DESIGN-PASS.md counts: tools/places.sh POINT [COMMIT], POINT being 1 to 8; of the commit, or of what is checked out.
set -eu
point=${1:?a point, 1 to 8}
commit=${2:-HEAD}
code="crates/*/src/*.rt"
tests=":!crates/*/src/tests.rt"

list() {
    git grep -nE "$1" "$commit" -- "$code" "$tests" | sed "s/^$commit://"
}

case $point in
1) # own enums, flags, and numbers for kinds, sides and refusals
    list '^ *(pub(\(crate\))? )?enum |\b(kind|side|code|left|phase|end|area): (u64|u8)\b|second: bool|\b(Refused|No|End|Loses)\((u64|[0-9])|-> io::Result<(bool|u64)>|const (ON|SAID|PAGE_READ|NEXT|DONE|NOT_KNOWN|FAULT|STILL_RUNNING)\b' ;;
2) # names that are declared twice, in one crate or in two
    git grep -hoE '\b(fn|struct|enum|const) [A-Za-z_0-9]+' "$commit" -- "$code" | sort | uniq -d ;;
3) # loops over numbers, and while
    git grep -nE 'for [a-z_]+ in [^{]*\.\.|while ' "$commit" -- "$code" | sed "s/^$commit://" ;;
4) # conversions and printing by functions
    list '(fn|const fn) (heard|told|numbered|number|message|[a-z_]+_(number|byte|name)|(kind|phase)_(from|at|of)|as_bit|bit|is_named|weekday|with|has|read_(date|clock|length|time)|put_(quoted|title|day|time|end|topic|bad)|tell|value|digit|eight(_at)?)\b' ;;
5) # clauses that stand three times or more
    git grep -hoE '(requires|ensures)( [a-z_0-9]+)? \{.*\}' "$commit" -- "$code" | sed -E 's/^(requires|ensures)( [a-z_0-9]+)? //' | sort | uniq -c | awk '$1 > 2' ;;
6) # arrays beside lengths, places in a text, halves of a list
    list '(: |&|mut )\[(u64|u8|usize|&str); |\bPart \{|: Part\b|count: usize|long: (u64|usize)\b|let (mut )?(low|high) ' ;;
7) # matches on a kind, a name or a step
    list 'match (kind|code|first|name|self\.(part|stage|kind)|phase_of|stage|part|number|event|item|join|deed|content|left|told)\b|\bdyn |: fn\(' ;;
8) # answers to goals, by file
    for file in $(git ls-tree -r --name-only "$commit" crates | grep -E 'proofs/.*/Answers.antt'); do
        printf '%s %s\n' "$(git show "$commit:$file" | grep -c '^pub ')" "$file"
    done ;;
*)
    echo "a point is 1 to 8" >&2
    exit 2 ;;
esac
