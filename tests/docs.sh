#!/usr/bin/env bash
# Every path, definition, contract, law and must-fail edit that the documents name is there.
# A path is a word in backquotes that begins with crates/, docs/, tests/, tools/ or .ci/. A word in backquotes behind a path and a colon,
# as in `crates/calendar/specs/Dates.antt`: `dayOf`, has to stand in that file as a whole word. The example of README.md is the input and
# the output of a run in tests/share. The table of refusals is the same wherever it stands: in numbers and names, and in meanings where a user reads them.
# The files that docs/READING.md lists use nothing of the project that stands elsewhere, and have about as many lines as it says. No two definitions of
# specs/ have one name.
set -u
cd "$(dirname "$0")/.." || exit 1
bad=0
checked=0

# Whether a name stands in a file as a whole word, in a line that is no comment and brings in nothing: beside it are only characters that no name has.
has_word() {
    grep -vE '^ *(--|//|#)|^(pub |ghost )?use ' "$2" 2>/dev/null | LC_ALL=C tr -cs "A-Za-z0-9_'\200-\377-" '\n' | grep -xF -- "$1" >/dev/null
}

for page in README.md docs/*.md; do
    while read -r path; do
        checked=$((checked + 1))
        if [ ! -e "$path" ]; then
            echo "$page names $path, which is not there"
            bad=1
        fi
    done < <(grep -oE '`(crates|docs|tests|tools|\.ci)/[^` ]*`' "$page" | tr -d '`' | sort -u)
    while IFS=$'\t' read -r path names; do
        for name in $names; do
            checked=$((checked + 1))
            if ! has_word "$name" "$path"; then
                echo "$page names $name in $path, which does not have it"
                bad=1
            fi
        done
    done < <(grep -oE '`crates/[^` ]*`: `[^`]*`((,| and) `[^`]*`)*' "$page" | sed -E 's/^`([^`]*)`: /\1\t/; s/` and `/` `/g; s/[`,]//g')
done
for example in tests/share/list.in tests/share/list.out; do
    checked=$((checked + 1))
    if [[ $(cat README.md) != *"$(sed 's/^/    /' "$example")"* ]]; then
        echo "README.md does not show $example as it is"
        bad=1
    fi
done

# The files of a table of docs/READING.md, by its heading.
listed() {
    sed -n "/^## $1\$/,/^## /p" docs/READING.md | sed -nE 's/^\| `(crates[^`]*)` .*/\1/p'
}

# Holds files to a number of lines, and to standing by themselves: what they use of the project is a struct or an enum of its code, or stands in one of the
# files allowed.
reads() {
    local least=$1 most=$2 files=$3 allowed=$4 lines
    checked=$((checked + 1))
    if [ -z "$files" ]; then
        echo "docs/READING.md lists no files under one of its headings"
        bad=1
        return
    fi
    # shellcheck disable=SC2086
    lines=$(cat $files | grep -vcE '^use |^$')
    if [ "$lines" -lt "$least" ] || [ "$lines" -gt "$most" ]; then
        echo "docs/READING.md lists files of $lines lines together, and says another number"
        bad=1
    fi
    while read -r file; do
        if ! grep -qxF "$file" <<<"$allowed"; then
            echo "a file that docs/READING.md lists uses $file, which it does not list"
            bad=1
        fi
        # shellcheck disable=SC2086
    done < <(sed -nE '/\.specs\.declared\./d; /^use Rattle\.std\./d; s/^use Rattle\.([a-z0-9_]+)\.(specs|proofs)\.([A-Za-z0-9]+)\..*/crates\/\1\/\2\/\3.antt/p' $files | sort -u)
}

calls=$(listed "The calls")
texts=$(listed "Text and program")
changeovers=$(listed "Changeover days")
reads 1050 1150 "$calls" "$calls"
reads 600 700 "$texts" "$calls
$texts"
reads 50 70 "$changeovers" "$calls
$texts
$changeovers"

# No two definitions of specs/ have one name, whatever their crates.
while read -r name; do
    echo "two definitions of specs/ have the name $name:"
    grep -nE "^(abbrev|unfoldable) pub $name |^(pub )?(record|data) $name " crates/*/specs/*.antt | cut -d : -f 1,2
    bad=1
done < <(sed -nE 's/^(abbrev|unfoldable) pub ([A-Za-z0-9_]+) .*/\2/p; s/^pub (record|data) ([A-Za-z0-9_]+) .*/\2/p' crates/*/specs/*.antt | sort | uniq -d)

# Every law that a crate states has its row.
for law in $(sed -nE 's/^abbrev pub ([A-Za-z0-9]+) : Type 0$/\1/p' crates/*/specs/Laws.antt crates/*/specs/Theorems.antt); do
    checked=$((checked + 1))
    if ! grep -q "^|.*\`$law\`" docs/PROMISES.md; then
        echo "docs/PROMISES.md has no row for the law $law"
        bad=1
    fi
done

# What a text says of the refusals, by the lines that a substitution gives, with names in one way of writing: NotInColumns becomes NOT_IN_COLUMNS.
rows() {
    sed -nE "$1" | sed -E 's/([a-z])([A-Z])/\1_\2/g; s/^([^:]*)/\U\1/'
}

# Holds what a place says of the refusals to what it has to say.
agrees() {
    checked=$((checked + 1))
    if [ -z "$3" ] || [ "$2" != "$3" ]; then
        echo "the table of refusals in $1 is not what it has to be (<):"
        diff <(echo "$3") <(echo "$2")
        bad=1
    fi
}

numbers=crates/answers/specs/Numbers.antt
code=crates/answers/src/lib.rt
header=crates/share_c/share.h
wrapper=crates/share_c/rust/src/refusal.rs
second=tests/second/src/refusal.rs

table=$(rows 's/^number_of ([A-Za-z]+) = ([0-9]+)$/\2 \1/p' <$numbers)
agrees "$numbers, by number" "$(cut -d ' ' -f 1 <<<"$table")" "$(seq 16)"
agrees $code "$(rows 's/^ *([A-Za-z]+) = ([0-9]+),$/\2 \1/p' <$code)" "$table"
agrees README.md "$(rows 's/^\| ([0-9]+) \| `([A-Za-z]+)` \| .*/\1 \2/p' <README.md)" "$table"
agrees $header "$(rows 's/^ *SHARE_([A-Z_]+) = ([1-9][0-9]*),? .*/\2 \1/p' <$header)" "$table"
agrees $wrapper "$(rows 's/^ *([A-Za-z]+) = ([0-9]+),$/\2 \1/p' <$wrapper)" "$table"
agrees $second "$(rows 's/^pub const ([A-Z_]+): u64 = ([0-9]+);$/\2 \1/p' <$second)" "$table"

# The list that has no numbers has the table's order.
names=$(cut -d ' ' -f 2 <<<"$table")
agrees "$wrapper, in its list" "$(rows 's/^ *Refusal::([A-Za-z]+),$/\1/p' <$wrapper)" "$names"

# Each meaning is what README.md has; those of the second implementation are its own.
meanings=$(rows 's/^\| [0-9]+ \| `([A-Za-z]+)` \| (.*) \|$/\1: \2/p' <README.md)
agrees "$header, by meaning" "$(rows 's/^ *SHARE_([A-Z_]+) = [1-9][0-9]*,? +\/\* (.*) \*\/$/\1: \2/p' <$header)" "$meanings"
texts=$(tr '\n' ' ' <$wrapper | grep -oE 'Refusal::[A-Za-z]+ => [{ ]*"[^"]*"')
agrees "$wrapper, by meaning" "$(rows 's/^Refusal::([A-Za-z]+) => [{ ]*"(.*)"$/\1: \2/p' <<<"$texts")" "$meanings"

echo "docs.sh: $checked references looked up"
[ "$checked" -gt 0 ] && [ "$bad" -eq 0 ]
