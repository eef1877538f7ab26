#!/usr/bin/env python3
"""Brings the repository's own definitions and lemmas to Rattle's spelling: words in snake case, types in camel case.

usage: python3 tools/respell.py [--list]     once, at the top, right after the kit's own script for an older repository

A name is the repository's own if a file of specs/ or a lemma file of proofs/ declares or binds it. Names that stand for
what Rattle makes (goals, steps) are declared in the files below proofs/FUNCTION/ alone and are left, but for a
function's proof, NAME-spec, which is NAME_spec. Code outside clauses and `ghost use` lines is not read.
"""
import collections
import glob
import re
import sys

# a letter, then letters, digits and marks: a name of antt
WORD = r"[A-Za-z][\w'’′→≢≡≤<>+*/-]*"
DASH = re.compile(r"(?<=\w)-(?=\w)")
DECLARED = re.compile(rf"^[ \t]*(?:(?:abbrev|unfoldable|pub|record|data|infix\w* \d+)[ \t]+)*({WORD})[ \t]*:(?=\s)", re.M)
BOUND = [
    re.compile(rf"[({{]((?:{WORD}[ \t]+)*{WORD})[ \t]*:"),
    re.compile(rf"λ[ \t]+((?:{WORD}[ \t]*)+)\."),
    re.compile(rf"\blet[ \t]+({WORD})"),
]
# types, and names that would fall together with another's
OWN = {
    "All-fine": "AllFine",
    "All-move": "AllMove",
    "Empty-list": "EmptyList",
    "Ends-done": "EndsDone",
    "Finite-query": "FiniteQuery",
    "In-bounds": "InBounds",
    "Is-fresh": "IsFresh",
    "Led-to": "LedTo",
    "Sent-quiet": "SentQuiet",
    "Stands-open": "StandsOpen",
    "Stays-quiet": "StaysQuiet",
    "Told-truly": "ToldTruly",
    "Wants-send": "WantsSend",
    "all-finite": "AllFinite",
    "is-nan": "nan_if_ne",
    "Holds-fresh": "HoldsFresh",
    "In-wait": "InWait",
    "Is-started": "IsStarted",
    "frame-lent": "frame_lent",
    "get-f32": "get_f32",
    "get-u32": "get_u32",
}
# names that only patterns bind, or that are declared in one line with others
MORE = ["c-is", "lent-fn", "no-turn", "none-sent", "of-d3", "t-is", "verifies-left"]
# types that are local to a file, by the end of its path; elsewhere the name is another thing's
LOCAL = {
    "law_switch/proofs/ModeReads.antt": {"is-sent": "IsSent"},
    "law_switch/proofs/Started.antt": {"is-refused": "IsRefused", "refusal": "IsRefusal", "is_known": "IsKnown", "is-accepted": "IsAccepted"},
    "law_switch/proofs/Traced.antt": {"is_none": "IsNone"},
    "law_switch/proofs/Ran.antt": {"is_open": "IsOpen"},
    "law_switch/proofs/Success.antt": {"is-done": "IsDone", "fails": "Fails"},
}


def lemma_files():
    return sorted(glob.glob("crates/*/specs/**/*.antt", recursive=True) + glob.glob("crates/*/proofs/*.antt"))


def proof_files():
    return sorted(glob.glob("crates/*/proofs/*/**/*.antt", recursive=True))


def library_names(files):
    found = set()
    for f in files:
        for m in re.finditer(r"^(?:pub )?use ([^\s{]+?)\.\{([^}]*)\}", open(f, encoding="utf-8").read(), re.M):
            if not m.group(1).startswith("Rattle.") or m.group(1).startswith("Rattle.std"):
                for n in m.group(2).split(","):
                    found.add(n.split(" as ")[0].strip())
    return found


def turned():
    """The new name of each own name that changes."""
    library = library_names(lemma_files() + proof_files())
    names = set()
    for f in lemma_files():
        text = re.sub(r"--.*", "", open(f, encoding="utf-8").read())
        names.update(m.group(1) for m in DECLARED.finditer(text))
        for b in BOUND:
            for m in b.finditer(text):
                names.update(m.group(1).split())
    new = {}
    for n in (names | set(OWN) | set(MORE)) - library:
        if n in OWN:
            new[n] = OWN[n]
        elif DASH.search(n) and n[0].islower():
            new[n] = DASH.sub("_", n)
        if "′" in n:
            new[n] = new.get(n, n).replace("′", "'")
    return new, names, library


def functions():
    return {m for f in glob.glob("crates/*/src/**/*.rt", recursive=True) for m in re.findall(r"\bfn (\w+)", open(f, encoding="utf-8").read())}


def main(argv):
    new, names, library = turned()
    made = {f.replace("_", "-") + "-spec": f + "_spec" for f in functions()}
    every = dict(new)
    every.update(made)
    token = re.compile(rf"(?<![\w'-])({WORD})")

    def turn(m):
        return every.get(m.group(1), m.group(1))

    if "--list" in argv:
        for k in sorted(new):
            print(k, new[k])
        back = collections.defaultdict(set)
        for n in names | library:
            back[new.get(n, n)].add(n)
        for k, v in sorted(back.items()):
            if len(v) > 1:
                print("TOGETHER", k, sorted(v))
        return

    def code(text, turn):
        """Turns names outside strings, and in comments those in backquotes."""
        out = []
        for line in text.split("\n"):
            parts = re.split(r"(\"[^\"]*\"|(?<!\S)--(?!\S).*|//.*)", line)
            for i, p in enumerate(parts):
                if i % 2 == 0:
                    parts[i] = token.sub(turn, p)
                elif not p.startswith('"'):
                    parts[i] = re.sub(r"`[^`]*`", lambda m: token.sub(turn, m.group()), p)
            out.append("".join(parts))
        return "\n".join(out)

    for f in lemma_files() + proof_files():
        text = open(f, encoding="utf-8").read()
        local = next((n for end, n in LOCAL.items() if f.endswith(end)), {})
        out = code(text, lambda m: local.get(m.group(1)) or turn(m))
        if out != text:
            open(f, "w", encoding="utf-8").write(out)
    clause = re.compile(r"^\s*(?:ghost use\b|requires\b|ensures\b|ghost\b)")
    for f in sorted(glob.glob("crates/*/src/**/*.rt", recursive=True)):
        lines = open(f, encoding="utf-8").read().split("\n")
        inside = False
        for i, line in enumerate(lines):
            inside = inside or bool(clause.match(line))
            if inside:
                lines[i] = code(line, turn)
                inside = not line.rstrip().endswith((";", "}"))
            elif "//" in line:
                head, mark, rest = line.partition("//")
                lines[i] = head + code(mark + rest, turn)
        open(f, "w", encoding="utf-8").write("\n".join(lines))


if __name__ == "__main__":
    main(sys.argv[1:])
