#!/usr/bin/env bash
# Lists the public functions without a must-fail edit whose refusal begins at them:  bash tests/edits.sh LOG   or   rt must-fail CRATE | bash tests/edits.sh
# It reads what `rt ci` or `rt must-fail` said of the edits, and tries none itself. A refusal begins at a function where the place that is
# named first lies in the function's folder of proofs/ or in its attributes, contract or body. Of crates of whose edits nothing was said it tells nothing but
# their number. It is no test: the exit status is 0.
set -u
log=$(realpath -- "${1:-/dev/stdin}") || exit 1
cd "$(dirname "$0")/.." || exit 1
python3 - "${1:+$log}" 3<&0 <<'P'
import re, sys
from pathlib import Path

# A function's head: whether it is public, and its name.
HEAD = re.compile(r'\s*(pub )?(?:extern "C" )?fn (\w+)')
# A refused edit: its crate, and the first place that is named.
SAID = re.compile(r'rt: must-fail (\w+)/\w+\.edit: refused, as it must be: (?:note: )?(?:\./)?((?:src|proofs)/\S+?):(\d+):')


def functions(crate):
    """The functions of a crate's code: file, first line with its attributes, whether public, and the folder of its proofs, which is its path."""
    for file in sorted((crate / "src").rglob("*.rt")):
        place = file.relative_to(crate)
        module = [part for part in place.with_suffix("").parts[1:] if part not in ("lib", "main")]
        inside, first = [], None
        for number, line in enumerate(file.read_text().splitlines(), 1):
            if found := re.match(r"impl(?:<[^>]*>)? (?:\S+ for )?(\w+)", line):
                inside = [found[1]]
            elif line == "}":
                inside = []
            elif found := HEAD.match(line):
                yield str(place), first or number, bool(found[1]), "/".join(module + inside + [found[2]])
            first = (first or number) if line.lstrip().startswith("#[") else None


path = sys.argv[1]
text = open(path or 3, errors="replace").read()
places = {}
for crate, file, line in SAID.findall(text):
    places.setdefault(crate, []).append((file, int(line)))
every, bare, untried = 0, [], 0
for crate in sorted(Path("crates").iterdir()):
    if crate.name not in places:
        untried += any((crate / "must-fail").glob("*.edit"))
        continue
    heads = list(functions(crate))
    seen = set()
    for file, line in places[crate.name]:
        if file.startswith("proofs/"):
            seen.add(str(Path(file).parent.relative_to("proofs")))
        else:
            seen.update([path for at, number, _, path in heads if at == file and number <= line][-1:])
    public = [path for _, _, shown, path in heads if shown]
    every += len(public)
    bare += [f"{crate.name}::{path.replace('/', '::')}" for path in public if path not in seen]
for name in bare:
    print(f"edits.sh: {name} has no must-fail edit whose refusal begins at it")
print(f"edits.sh: {len(bare)} of {every} public functions have none; of the edits of {untried} crates nothing was said")
P
