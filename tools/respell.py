#!/usr/bin/env python3
"""respell: the repository's own definitions and lemmas in the spelling of today's Rattle.

Words are in snake case (`chargeOn` is `charge_on`, `outcome-at` is `outcome_at`, `Million` is `million`); types and facts keep their capitals.
Names of the library, of source code and of goals stay. Run once, at the top, after port.py.
  tools/respell.py          rewrites crates/, README.md and docs/
  tools/respell.py --list   prints old and new names, and those that fall together
"""
import os
import re
import sys

ROOT = os.path.dirname(os.path.dirname(os.path.abspath(__file__)))
NAME = r"[^\s(){}\[\];,.:λ«»`'\"]+"
TOKEN = re.compile(NAME)
DEFINED = re.compile(r"^( *)((?:(?:abbrev|unfoldable|pub)\s+)*)(?:(record|data|ruleset|module)\s+)?(" + NAME + r")((?: [({][^:]*:[^)}]*[)}])*)\s*(?::(?:\s|$)|=\s)")
USE = re.compile(r"^\s*(?:ghost )?use (Rattle\.(\w+)\.(?:specs|proofs)((?:\.[\w+]+)*))\.\{([^}]*)\}", re.M)
MADE = re.compile(r"\.(Statement|Tie|Reads|Lts|Goals|Given|declared|contracts)\b")
# numbers and other words that began with a capital
CAPITALS = """Million TenThousand HighestFeeRate MostHolders LeastSupply HighestPoints
LongestSpacing LeastLength LockLpAmount ObservationNum NotApproved ExceededSlippage InvalidInput ZeroTradingTokens InvalidVault EmptySupply
InsufficientVault MathOverflow InvalidFeeModel RequireViolated UnreadableRow InitLpAmountTooLess TransferFeeCalculateNotMatch
LeftLpAmountTooLess RegisterFull""".split()
# these would fall together with another name, or read as a type
SPECIAL = {"U64": "u64_max", "Panic": "panicked"}
KINDS = "Opening SwapBaseInput SwapBaseOutput Deposit Withdraw SettleCreatorFee SetStatus".split()
# lemmas that would have the name of a definition
LEMMAS = """accepted-at answer-of at-once balance-at change-of ended-on far-amount far-end fed-on first-use in-turn is-of least-sent near-end
no-trade paid-out past-limits refused-at refused-opening register-full root-at supply-of""".split()


def snake(name):
    parts = re.sub(r"(?<=[a-z0-9])([A-Z])", lambda m: "_" + m.group(1).lower(), name).replace("-", "_")
    return parts[0].lower() + parts[1:]


def respelled(name):
    if name in SPECIAL:
        return SPECIAL[name]
    if name in KINDS:
        return re.sub(r"(?<=[a-z])([A-Z])", r"_\1", name).lower() + "_kind"
    if name in LEMMAS:
        return name.replace("-", "_") + "_lem"
    if name in CAPITALS:
        return snake(re.sub(r"(?<=[a-z0-9])([A-Z])", r"_\1", name)).lower()
    if re.match(r"[a-z]", name) and not re.search(r"[^A-Za-z0-9_\-]", name) and re.search(r"[A-Z]|-", name):
        return re.sub(r"_+", "_", snake(name)).lower()
    return name


def paths(*endings):
    for folder, dirs, names in os.walk(os.path.join(ROOT, "crates")):
        dirs[:] = sorted(d for d in dirs if d != "out")
        for name in sorted(names):
            if name.endswith(endings):
                yield os.path.join(folder, name)


def read(path):
    with open(path, encoding="utf-8") as f:
        return f.read()


def definitions(text):
    """The names that a file defines, with whether each is a record's field."""
    found = {}
    record = None
    for line in text.split("\n"):
        m = DEFINED.match(line)
        if not m or m.group(4) in ("use", "where", "let", "in", "elim", "_"):
            continue
        if re.search(r":\s+(tie|goal)\.", line):
            continue
        depth, kind = len(m.group(1)), m.group(3)
        if kind == "module":
            continue
        if kind == "record":
            record = depth
        elif record is not None and depth <= record:
            record = None
        found[m.group(4)] = record is not None and kind != "record" and depth > record
    return found


def imported(text):
    found = set()
    for m in USE.finditer(text):
        if MADE.search(m.group(3) + "."):
            continue
        for item in m.group(4).split(","):
            found.update(item.replace(" as ", " ").split())
    return found


def turn(text, names, fields, comments):
    def code(part):
        def one(m):
            word = m.group(0)
            before = part[m.start() - 1] if m.start() else " "
            known = fields if before == "." and not re.search(r"[\w)]\.\{?$", part[: m.start()]) is None else names | fields
            if before == "." and part[: m.start() - 1].endswith(("specs", "proofs")):
                return word
            return respelled(word) if word in known else word

        return TOKEN.sub(one, part)

    out = []
    for line in text.split("\n"):
        cut = re.search(comments, line)
        at = cut.start() if cut else len(line)
        note = re.sub(r"`([^`]*)`", lambda m: "`" + TOKEN.sub(lambda t: respelled(t.group(0)) if t.group(0) in names | ALL else t.group(0), m.group(1)) + "`", line[at:])
        out.append(code(line[:at]) + note)
    return "\n".join(out)


def main():
    global ALL
    antt = {p: read(p) for p in paths(".antt")}
    defined = {p: definitions(t) for p, t in antt.items()}
    everywhere = {n for d in defined.values() for n in d}
    fields = {n for d in defined.values() for n, f in d.items() if f and respelled(n) != n}
    ALL = {n for n in everywhere if respelled(n) != n}
    if "--list" in sys.argv:
        together = {}
        for n in everywhere:
            together.setdefault(respelled(n), set()).add(n)
        for n in sorted(ALL):
            print(n, respelled(n))
        for new, olds in sorted(together.items()):
            if len(olds) > 1:
                print("TOGETHER", new, sorted(olds), [sorted(os.path.relpath(p, ROOT) for p in defined if o in defined[p])[:4] for o in sorted(olds)])
        return
    for p, t in antt.items():
        names = {n for n in defined[p] if not defined[p][n]} | imported(t)
        new = turn(t, names & (ALL | set(defined[p])), fields, r"(^|\s)--(\s|$)")
        if new != t:
            open(p, "w", encoding="utf-8").write(new)
    for p in paths(".rt"):
        t = read(p)
        new = turn(t, imported(t) & ALL, fields, r"(^|\s)//(\s|$)")
        if new != t:
            open(p, "w", encoding="utf-8").write(new)
    for p in paths(".edit"):
        t = read(p)
        in_antt = re.search(r"^file: .*\.antt", t, re.M)
        words = {n for n in ALL if in_antt or not "-" in n}
        new = turn(t, words, fields, r"^#")
        if new != t:
            open(p, "w", encoding="utf-8").write(new)
    pages = [os.path.join(ROOT, "README.md")] + [os.path.join(ROOT, "docs", n) for n in sorted(os.listdir(os.path.join(ROOT, "docs"))) if n.endswith(".md")]
    for p in pages:
        t = read(p)
        new = re.sub(r"`([^`\n]*)`", lambda m: "`" + TOKEN.sub(lambda x: respelled(x.group(0)) if x.group(0) in ALL else x.group(0), m.group(1)) + "`", t)
        if new != t:
            open(p, "w", encoding="utf-8").write(new)


if __name__ == "__main__":
    main()
