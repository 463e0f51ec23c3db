#!/usr/bin/env python3
"""Gives the repository's own definitions and lemmas the spelling of today's Rattle: words in snake case, facts in camel case.

usage: python3 tools/respell.py      once, at the top, on what port.py left

It reads the names that crates/*/specs and crates/*/proofs define, and respells each of them there, in src/ and in
must-fail/: `sections-up-to` and `isPlan` become `sections_up_to` and `is_plan`. Names of the library, of goals and of
the code's own functions stay. docs/ and README follow where they write a name in backquotes.
"""

import os
import re
import sys

# names that would fall together with another, or that are facts: each with the crates where it is so, or none for all
CHOSEN = {
    "withHeld": "with_held_signals",
    "withOwn": "with_own_station",
    "withWatch": "with_this_watch",
    "atOwn": "at_own_station",
    "annulled-exclude": "AnnulledExclude",
    "off-line": "OffLine",
    "one-value-each": "OneValueEach",
    "in-a-field": "InAField",
    # names that are bound where they are used
    "no-form": "no_form",
    "plan-bytes": "plan_bytes",
    "situation-bytes": "situation_bytes",
    "mark-and-count": "mark_and_count",
    "next-red": "next_red",
}
CHOSEN_IN = {
    "crates/rulebook/": {"is-plan": "is_a_plan"},
    "crates/questions/": {"room-after": "room_after"},
    "crates/signals/": {"on_edge": "OnEdge", "on-edge": "OnEdge", "those": "Those"},
    "crates/keylaws/proofs/SlotsOfWords": {"is-slot": "is_slot_of_word"},
    "crates/keylaws/proofs/PartsJoined": {"last-slot": "last_slot_is"},
    "crates/printing/": {"last-slot": "last_slot_of"},
    "crates/calllaws/proofs/KeyFetched": {"part-after": "part_after_call"},
    "crates/events/proofs/ByCode": {"refusal-of": "refusal_of_code"},
    "crates/marking/proofs/mark/": {"in-range": "range_known"},
}
# who cites a name that has another form in the crate where it stands
FOLLOWS = {"SignalSets": {"those": "Those", "on_edge": "OnEdge"}, "SlotsOfWords": {"is-slot": "is_slot_of_word"}, "LeftLaws": {"last-slot": "last_slot_of"}}

TOKEN = re.compile(r"[^\s(){}\[\].,;:@\"`]+")
DEFINES = re.compile(
    r"^\s*(?:(?:abbrev|unfoldable|pub|record|data) )*([^\s:(){}\[\],;.\"]+)"
    r"(?: *(?:\([^()]*(?:\([^()]*\)[^()]*)*\)|\{[^}]*\}))* *:(?: (.*))?$"
)
USES = re.compile(r"^(?:pub )?(?:ghost )?use ([^{};\n]+?)\.\{([^}]*)\}", re.M)


def snake(name):
    parts = name.split("◌")
    out = []
    for p in parts:
        if not re.match(r"[A-Z]", p):
            p = re.sub(r"(?<=[a-z0-9])([A-Z])(?=[a-z0-9])", lambda m: "_" + m.group(1).lower(), p)
        out.append(re.sub(r"(?<=[^\s])-(?=[^\s>])", "_", p))
    return "◌".join(out)


def files(root, endings):
    for folder, dirs, names in os.walk(os.path.join(root, "crates")):
        dirs[:] = sorted(d for d in dirs if d != "out")
        for f in sorted(names):
            if f.endswith(endings):
                yield os.path.relpath(os.path.join(folder, f), root)


def is_proof(path):
    return "/proofs/" in path and os.path.basename(path) in ("Proof.antt", "Answers.antt", "Invariants.antt")


def defined(text):
    for line in text.splitlines():
        if line.lstrip().startswith("--") or line.startswith(("use ", "pub use ", "infix")):
            continue
        m = DEFINES.match(line)
        if m:
            yield m.group(1), m.group(2) or ""


def turned(name):
    return CHOSEN.get(name) or snake(name)


def parts_of(name):
    return [p for p in name.split("◌") if p]


def main():
    root = sys.argv[1] if len(sys.argv) > 1 else "."
    own = {n: new for n, new in CHOSEN.items() if not re.search(r"[A-Z]", new)}
    for path in files(root, ".antt"):
        if is_proof(path):
            continue
        with open(os.path.join(root, path), encoding="utf-8") as f:
            for name, _ in defined(f.read()):
                new = turned(name)
                if new != name:
                    if "◌" in name:
                        own[name] = new
                        for a, b in zip(parts_of(name), parts_of(new)):
                            if a != b:
                                own[a] = b
                    else:
                        own[name] = new
    clashes = 0
    for path in files(root, (".antt", ".rt", ".edit")):
        full = os.path.join(root, path)
        with open(full, encoding="utf-8") as f:
            text = f.read()
        table = dict(own)
        if is_proof(path):
            for name, kind in defined(text):
                if "tie." in kind or "lts." in kind or "goal." in kind or "statement" in kind or name in table:
                    continue
                if turned(name) != name:
                    table[name] = turned(name)
        for where, names in USES.findall(text):
            from_own = where.startswith("Rattle.") and os.path.isdir(os.path.join(root, "crates", where.split(".")[1]))
            for n in names.split(","):
                n = n.split(" as ")[0].strip()
                for follower, chosen in FOLLOWS.items():
                    if where.endswith("." + follower) and n in chosen:
                        table[n] = chosen[n]
                if not from_own:
                    table.pop(n, None)
                    for p in parts_of(n):
                        table.pop(p, None)
        for start, chosen in CHOSEN_IN.items():
            if path.startswith(start):
                table.update(chosen)
        back = {}
        seen = set()

        def put(m, line, inside):
            word = m.group(0)
            if word not in table:
                return word
            if inside and "-" in word and not (m.start() and line[m.start() - 1] == "`"):
                return word
            before = line[: m.start()]
            if is_proof(path) and before.endswith(".") and re.search(r"(?:^|[\s(,])[a-z][^\s(]*\.$", before) and word not in fields:
                return word
            back.setdefault(table[word], set()).add(word)
            return table[word]

        fields = {n for n in own}
        out = []
        for line in text.split("\n"):
            code, mark, note = line, "", ""
            at = line.find("--" if path.endswith(".antt") else "//")
            if at >= 0 and (at == 0 or line[at - 1] == " "):
                code, note = line[:at], line[at:]
            new = TOKEN.sub(lambda m: put(m, code, False), code)
            if note:
                new += TOKEN.sub(lambda m: put(m, note, True), note)
            out.append(new)
        for new, olds in sorted(back.items()):
            if len(olds) > 1:
                clashes += 1
                print(f"falls together: {path}: {new}: {sorted(olds)}")
        made = "\n".join(out)
        if made != text:
            with open(full, "w", encoding="utf-8") as f:
                f.write(made)
    for folder in ("README.md", "docs"):
        pages = [folder] if folder.endswith(".md") else [os.path.join(d, f) for d, _, fs in os.walk(os.path.join(root, folder)) for f in fs if f.endswith(".md")]
        for page in pages:
            full = page if os.path.isabs(page) else os.path.join(root, page) if not page.startswith(root) else page
            with open(full, encoding="utf-8") as f:
                text = f.read()
            made = re.sub(r"`[^`\n]+`", lambda m: TOKEN.sub(lambda t: own.get(t.group(0), t.group(0)), m.group(0)), text)
            if made != text:
                with open(full, "w", encoding="utf-8") as f:
                    f.write(made)
    print(f"{len(own)} names, {clashes} fall together")
    return 1 if clashes else 0


sys.exit(main())
