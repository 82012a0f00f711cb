#!/usr/bin/env bash
# Lists the places in the sources that a design pass looks at, by kind: `tools/places.sh [COMMIT]`, at the top of the repository; with no commit, of the files as they
# stand. `docs/DESIGN-PASS.md` has the counts and says what became of each place. It only lists; the last line of each kind is its count.
set -u
cd "$(dirname "$0")/.." || exit 1
at=${1:-}

# Lines of the sources that match, but for comments.
lines() {
    git grep -nE "$1" ${at:+"$at"} -- 'crates/*/src/*.rt' | sed "s/^${at:-^}://" | sort -u | grep -vE '^[^:]*:[0-9]+: *//'
}

kind() {
    local name=$1 found
    found=$(lines "$2" | { [ $# -gt 2 ] && grep -vE "$3" || cat; })
    echo "## $name"
    [ -n "$found" ] && echo "$found"
    echo "$name: $(printf '%s' "$found" | grep -c .)"
    echo
}

kind '1a enums' '^(pub )?enum '
kind '1b a verdict, an answer number or a flag with values beside it' '^    (pub )?[a-z_]+: (Verdict|bool),|^    (pub )?answer: u64,'
kind '1c numbers that stand for none or for a kind' '^(pub )?const (NO[A-Z_]*|MEASURED|ZERO_[A-Z_]+): |own: u64|> 0 \{$|== 0 \{$|^    0$|return 0;'
kind '2 functions, to be read for twins' '^ *(pub )?(extern "C" )?fn '
kind '3a while' '^ *(while|loop) '
kind '3b for over a range' '^ *for .* in .*\.\.'
kind '4a conversions by as' ' as (u8|u16|u32|u64|usize|i64)\b'
kind '4b functions that convert, compare or print' 'fn ([a-z_]*number|answer|magnitude|digit_of|day_answer|byte_before|still_due|write_column|is_written|differ|not_before|has_minus|[a-z_]*unused|empty|zero)\('
kind '5a parameters that travel together: a buffer and a place in it' '^ *start: usize,|out: &mut \[u[0-9]+\], (start|at): usize|text: &\[u8\], (start|at): usize'
kind '5b parameters that travel together: a journal and a count' 'journal: &(mut )?\[u64\], count: usize|^    count: usize,$'
kind '5c parameters that travel together: registration, last stamp, numbers, journal' '^    last: u64,|, last: u64,'
kind '5d parameters that travel together: day, quarter, stamp' '^ *until: u64,'
kind '5e records by value' '[(a-z]: (Registration|Service)[,)]'
kind '6a a length beside an array or a slice' '(count|points|n|consumers|producers|size): usize'
kind '6b parallel arrays' '^    pub [a-z]+: \[[a-z0-9]+; [0-9A-Z]+\],|(sources|keys|codes|statuses|counts): &\[u[0-9]+; [0-9]+\]'
kind '7 function pointers, dyn, tables of functions' 'dyn |\bfn\(|: fn '
echo '## 8 answers in proofs'
if [ -n "$at" ]; then count() { git grep -hE "$1" "$at" -- "$2"; }; else count() { git grep -hE "$1" -- "$2"; }; fi
echo "8a answers: $(count '^pub [^ ]+ : goal\.' 'crates/*/proofs/*Answers.antt' | wc -l)"
echo "8b lines of proof files: $(count '.' 'crates/*/proofs/*.antt' | wc -l)"
echo "8c lines of statements and definitions: $(count '.' 'crates/*/specs/*.antt' | wc -l)"
echo
echo '## 5f facts that three or more functions ask for'
if [ -n "$at" ]; then clauses() { git grep -hE '^ *requires ' "$at" -- 'crates/*/src/*.rt'; }; else clauses() { git grep -hE '^ *requires ' -- 'crates/*/src/*.rt'; }; fi
clauses | sed -E 's/^ *requires [a-z_]* *\{ (.*) \}$/\1/; s/ × /\n/g' | sed -E 's/^\((.*)\)$/\1/; s/\.(now|old)//g' | sort | uniq -c | sort -rn | awk '$1 >= 3'
