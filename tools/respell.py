#!/usr/bin/env python3
"""Brings the repository's own definitions, lemmas and fields to snake case.

usage: python3 tools/respell.py        at the top, once, after the kit's port.py

Every name that a file of specs/ or proofs/ declares with a dash or a capital inside is written in snake case, wherever it stands in clauses,
definitions, proofs, edits and pages. A lemma that would then have its definition's name gets `_lem`. Functions of src/, exported names,
strings, inputs and outputs keep theirs.
"""

import os
import re
import subprocess
import sys

# Lemmas, and fields that state one, whose definition has the same words.
LEMMAS = """aaux-form all-in-range audio-fits audio-number audio-rows block-turn blocks-in byte-at bytes-at channel-by check-rows count-said
dsf-agrees edge-number eleven-carries eleven-found half-of header-form header-in held-sample holds-group holds-time id-form in-room is-group
is-time mode-said numbers-line pack-bytes pack-in place-for printed-rows rank-sequence rank-turn rate-of replace-rows samples-left size-form
sound-block sound-named sound-word ssyb-form stored-word subcode-form subcode-pack survey-number ten-carries ten-found ten-turn time-number
time-refused time-rows vaux-block vaux-form vaux-pack video-fits vs-agrees vs-at vs-byte whole-number word-bytes word-start words-put""".split()

# Those that port.py has turned already, and where they stand.
TURNED = {
    "as_at": ["kept/proofs/Back.antt", "rules_packs/specs/InBytes.antt", "rules_packs/proofs/InBytes.antt"],
    "as_byte": ["rules_reads/proofs/GroundsAudio.antt"],
    "as_place": ["promises/proofs/Unrecorded.antt", "promises/proofs/SpareBits.antt"],
    "count_by": ["rules_packs/proofs/Judged.antt", "rules_packs/proofs/InBytes.antt", "rules_reads/proofs/GroundsAudio.antt"],
    "last_frame": ["rules_packs/proofs/Packs.antt"],
    "number_fits": ["writer/proofs/Whole.antt"],
    "rows_agree": ["rules_picture/proofs/Picture.antt", "rules_picture/proofs/Headlines.antt"],
}

# Fields that state a lemma under its definition's words: a projection of such a field has its name too.
FIELDS = "all-in-range blocks-in holds-group holds-time pack-in vs-at vaux-block".split()

WORD = r"(?<![\w'\-])[A-Za-z_][\w'\-]*"
DECLARED = re.compile(r"^\s*(?:(?:abbrev|unfoldable|pub) )*((?:[A-Za-z_][^\s:(){}.]*\s+)+)(?:\{ℓ\}\s*)?:\s")


def snake(name):
    name = name.replace("-", "_")
    return re.sub(r"(?<=[a-z0-9])[A-Z]", lambda m: "_" + m[0].lower(), name)


def files(top):
    out = subprocess.run(["git", "ls-files", "--cached", "--others", "--exclude-standard"], cwd=top, capture_output=True, text=True, check=True).stdout
    return [f for f in out.split("\n") if f and os.path.isfile(os.path.join(top, f))]


def read(path):
    with open(path, encoding="utf-8") as f:
        return f.read()


def declared(top, names):
    own = set()
    for f in names:
        if not f.endswith(".antt"):
            continue
        for line in read(os.path.join(top, f)).split("\n"):
            m = DECLARED.match(line)
            for n in m[1].split() if m else []:
                if n[0].islower() and ("-" in n or re.search("[A-Z]", n)):
                    own.add(n)
    return own


def code(text, own, here, aliases):
    """Text that is no comment."""

    def turn(m):
        n = m[0]
        before = text[: m.start()]
        dotted = re.search(r"(\w+)\.$", before)
        if n in LEMMAS and n in own:
            if dotted and n not in FIELDS and dotted[1] not in aliases:
                return snake(n)
            return snake(n) + "_lem"
        if here in TURNED.get(n, []):
            return n + "_lem"
        return snake(n) if n in own else n

    return re.sub(WORD, turn, text)


def quoted(text, own, here, aliases):
    """Text of a comment or a page: names stand between backticks."""
    return re.sub(r"`[^`\n]*`", lambda m: code(m[0], own, here, aliases), text)


def respelled(f, text, own):
    here = f[len("crates/"):] if f.startswith("crates/") else f
    aliases = set(re.findall(r"^use .* as (\S+)$", text, re.M))
    if f.endswith(".md"):
        return quoted(text, own, here, aliases)
    mark = {".antt": "--", ".rt": "//"}.get(os.path.splitext(f)[1])
    lines = []
    for line in text.split("\n"):
        if f.endswith(".edit"):
            lines.append(code(line, own, here, aliases) if not line.startswith("#") or "False under it" in line else quoted(line, own, here, aliases))
            continue
        at = line.find(mark) if line.lstrip().startswith(mark) else -1
        lines.append(line if at < 0 and '"' in line and f.endswith(".rt") else (quoted if at >= 0 else code)(line, own, here, aliases))
    return "\n".join(lines)


def main(top):
    names = [f for f in files(top) if f.startswith("crates/") and f.endswith((".antt", ".rt", ".edit")) or f.endswith(".md") and f != "docs/PORT.md"]
    own = declared(top, names)
    changed = 0
    for f in names:
        path = os.path.join(top, f)
        old = read(path)
        new = respelled(f, old, own)
        if new != old:
            with open(path, "w", encoding="utf-8") as out:
                out.write(new)
            changed += 1
    print(f"respell: {len(own)} names, {changed} files")


if __name__ == "__main__":
    main(sys.argv[1] if len(sys.argv) > 1 else ".")
