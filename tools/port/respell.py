#!/usr/bin/env python3
"""Turns this repository's own names to the spelling of today's Rattle. Run once, at the top, right after port.py.

1. Definitions, lemmas, fields and locals of specs/ and proofs/ that are written in camel case or with hyphens get snake case, wherever they are
   cited: in specs/, proofs/ and the clauses of src/. Types and modules, which begin with a capital, keep their names.
2. Names that Rattle makes of the source (goals, steps) have the source's own underscores: put-byte-end-requires becomes put_byte-end-requires.

It changes spelling alone, and stops where two names would fall together.
"""
import glob
import re
import sys

NAME = r"[^\W\d_A-Z][\w'\-]*"
EDGE = r"(?<![\w'\-])%s(?![\w'\-])"
SIGNED = re.compile(r"^\s*(?:(?:abbrev|pub|unfoldable)\s+)*(%s)\s*:\s(.*)$" % NAME)
LOCAL = re.compile(r"\blet (%s)\b\s*[:=]" % NAME)
GOAL = re.compile(r"\s*(?:goal|given)\.")


# Lemmas that would fall together with the definition that they speak of.
OTHERWISE = {
    "enter-checks": "same_enter_checks",
    "strike-checks": "same_strike_checks",
    "window-checks": "same_window_checks",
}


def read(path):
    with open(path, encoding="utf-8") as f:
        return f.read()


def snake(name):
    if name in OTHERWISE:
        return OTHERWISE[name]
    return re.sub(r"(?<=[a-z0-9])([A-Z])", lambda m: "_" + m.group(1).lower(), name).replace("-", "_")


def proof_files():
    return sorted(glob.glob("crates/*/proofs/**/*.antt", recursive=True))


def in_function_folder(path):
    return path.split("/proofs/")[1].count("/") > 0


def own_names(antt):
    names, goals = set(), set()
    for path in antt:
        for line in read(path).split("\n"):
            m = SIGNED.match(line)
            if m:
                (goals if GOAL.match(m.group(2)) else names).add(m.group(1))
            names.update(LOCAL.findall(line))
    return {n for n in names - goals if snake(n) != n}, goals


def source_words():
    words = set()
    for path in glob.glob("crates/*/src/*.rt"):
        words.update(re.findall(r"\b[a-z][a-z0-9]*(?:_[a-z0-9]+)+\b", read(path)))
    return sorted(words, key=len, reverse=True)


def made_name(token, words):
    """The token with the source's underscores, and with those of the words that Rattle makes."""
    out = token
    for word in words:
        kebab = word.replace("_", "-")
        out = re.sub(r"(?<![A-Za-z0-9_])%s(?![A-Za-z0-9_])" % re.escape(kebab), word, out)
    return re.sub(r"\bin-err(?=-|$)", "in_err", out)


def together(names, files):
    """Names that would be one after the change, in one file. A function of src/ may share its name with a definition."""
    bad = []
    for path in files:
        text = "\n".join(l for l in read(path).split("\n") if not re.search(r"\bfn |use .*\.(?:Goals|Given)\b", l))
        here = set(re.findall(r"(?<![\w'\-.])%s(?!\()" % NAME, text))
        fresh = {}
        for n in here & names:
            fresh.setdefault(snake(n), []).append(n)
        for new, olds in fresh.items():
            if len(olds) > 1 or new in here:
                bad.append((path, new, olds))
    return bad


def main():
    antt = sorted(glob.glob("crates/*/specs/**/*.antt", recursive=True)) + proof_files()
    files = antt + sorted(glob.glob("crates/*/src/*.rt"))
    names, goals = own_names(antt)
    bad = together(names, files)
    for path, new, olds in bad:
        print(f"{path}: {', '.join(olds)} would fall together with {new}")
    if bad and "--anyway" not in sys.argv:
        return 1
    pattern = re.compile(EDGE % ("(?:" + "|".join(sorted(map(re.escape, names), key=len, reverse=True)) + ")"))
    words = source_words()
    for path in files:
        text = read(path)
        out = []
        for line in text.split("\n"):
            comment = line.lstrip().startswith(("--", "//"))
            line = pattern.sub(lambda m: m.group(0) if comment and "-" in m.group(0) else snake(m.group(0)), line)
            if not comment and "/proofs/" in path and in_function_folder(path):
                line = re.sub(r"(?<![\w'])[A-Za-z][\w']*(?:-[\w']+)+", lambda m: made_name(m.group(0), words), line)
            out.append(line)
        new = "\n".join(out)
        if new != text:
            with open(path, "w", encoding="utf-8") as f:
                f.write(new)
    return 0


if __name__ == "__main__":
    raise SystemExit(main())
