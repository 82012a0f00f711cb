#!/usr/bin/env bash
# Runs program `share` on a file or on standard input:  bash share.sh FILE   or   bash share.sh <FILE
# Where the program is not built yet, or a file that it stands on is newer, it is proved and built first, which may take some minutes: standard error
# names each crate that is proved, and says why if that fails. A run that comes upon another one's build waits for it. Standard output is the program's alone.
set -u
if [ $# -gt 1 ]; then
    echo "usage: bash share.sh [FILE]" >&2
    exit 2
fi
if [ $# -eq 1 ] && { [ -d "$1" ] || [ ! -r "$1" ]; }; then
    echo "share.sh: there is no file $1 that can be read" >&2
    exit 2
fi
home=$(cd "$(dirname "$0")" && pwd)
program=$home/crates/share/out/share
note=$home/crates/share/out/share.stamp

# The folders of the crates that the program stands on, its own among them, by crates.txt.
folders() {
    awk -F: -v home="$home" '
        /^[^#]/ { sub(/ staticlib$/, "", $1); below[$1] = $2 }
        END {
            reached["share"]
            do {
                more = 0
                for (name in reached) {
                    count = split(below[name], names, " ")
                    for (i = 1; i <= count; i++) if (names[i] in below && !(names[i] in reached)) { reached[names[i]]; more = 1 }
                }
            } while (more)
            for (name in reached) print home "/crates/" name
        }' "$home/crates.txt"
}

# A file of these that is newer than the program, if there is one. What rt keeps in out/ does not count.
newer() {
    find "$@" -name out -prune -o \( -newer "$program" -o -cnewer "$program" \) -print -quit 2>&1
}

# Whether the program is there, rt has noted it as proved, and nothing that it stands on was altered, replaced or removed after it.
stands() {
    local on
    mapfile -t on < <(folders)
    [ -x "$program" ] && [ -e "$note" ] && [ -z "$(newer "$home/crates.txt" "${on[@]}")" ]
}

# Proves and builds the program. It gets the time at which this began, so that a file altered meanwhile is newer.
build() {
    local on
    if ! command -v rt >/dev/null 2>&1; then
        echo "share.sh: the Rattle kit is not installed: there is no command rt on the path" >&2
        exit 2
    fi
    folder=$(mktemp -d) || exit 2
    trap 'rm -rf "$folder"' EXIT
    # rt's own folders are there before, so that a crate's folder is newer than the program only where a file of it was added or removed.
    mapfile -t on < <(folders)
    mkdir -p "${on[@]/%//out}" || exit 1
    touch "$folder/began"
    if [ ! -x "$program" ]; then
        echo "share.sh: the program is proved and built first, in some minutes" >&2
    fi
    # `rt run` runs it too, on no input.
    (cd "$home/crates/share" && rt run) </dev/null 2>&1 | tee "$folder/log" | sed -unE 's/^rt: chose .* for ([a-z0-9_]+)$/share.sh: proving \1/p' >&2
    if [ "${PIPESTATUS[0]}" -ne 0 ]; then
        echo "share.sh: the program is not proved; rt says:" >&2
        cat "$folder/log" >&2
        exit 1
    fi
    if [ ! -x "$program" ]; then
        echo "share.sh: rt proved the program and left none" >&2
        exit 1
    fi
    touch -r "$folder/began" "$program"
    echo "share.sh: share is proved and built" >&2
}

# One run at a time looks and builds: it holds the lock of the project's folder.
if ! command -v flock >/dev/null 2>&1; then
    echo "share.sh: there is no command flock on the path, by which runs wait for each other" >&2
    exit 2
fi
exec 9<"$home"
flock -E 75 -w 1 9
case $? in
0) ;;
75)
    echo "share.sh: another run is building the program: this one waits for it" >&2
    flock 9 || exit 2
    ;;
*)
    echo "share.sh: the folder $home cannot be locked" >&2
    exit 2
    ;;
esac
stands || build
exec 9<&-

if [ $# -eq 1 ]; then
    "$program" <"$1"
else
    "$program"
fi
