#!/usr/bin/env python3
"""Respells the repository's own definitions and lemmas: words in snake case, types in camel case.

usage: python3 tools/respell.py [--check]     at the top of the repository, once, after port.py

port.py turns what the toolchain names; this turns what the repository names. `isNamed` and `is-named` become `is_named`, `Comes-to`
becomes `ComesTo`. Where a lemma would get the name of its function, it gets `_lem`. Names that Rattle makes in proof files stay.
--check writes nothing and lists names that would fall together in one file.
"""
import collections
import glob
import os
import re
import sys

W = r"[^\s(){}.;,@\"«»\[\]\\:|]+"
TOKEN = re.compile(r"--[^\n]*|//[^\n]*|b?\"(?:[^\"\\]|\\.)*\"|b?'(?:[^'\\\n]|\\.)'|«[^»]*»|" + W)
NAME = re.compile(r"[A-Za-z_][A-Za-z0-9_'₁₂]*(?:-[A-Za-z0-9_'₁₂ᴰ]+)*$")
HEAD = re.compile(r"(?m)^\s*(?:(?:pub|abbrev|unfoldable|data|record|ruleset|module)\s+)*(" + W + r")\s*:(?!=)")
# A group of clauses that binds several names, and one that declares a label.
RECORD = re.compile(r"(?:data|record|ruleset|module)\s+(" + W + ")")


def read(path):
    with open(path, encoding="utf-8", newline="") as it:
        return it.read()


def without_comments(text):
    return re.sub(r"--[^\n]*", "", text)


def snake(name):
    name = name.replace("-", "_")
    return re.sub(r"(?<=[a-z0-9_'])([A-Z])", lambda m: ("" if m.string[m.start() - 1] == "_" else "_") + m.group(1).lower(), name)


def camel(name):
    first, *rest = name.split("-")
    return first + "".join(it[:1].upper() + it[1:] for it in rest)


def plain(name):
    """The new spelling of a name, before names that fall together are told apart."""
    if not NAME.match(name):
        return name
    if name[0].isupper() and not re.search("[a-z]", name) and "-" in name:
        return name.replace("-", "_")
    if name[0].isupper():
        return camel(name) if "-" in name else name
    return snake(name) if "-" in name or re.search("[A-Z]", name) else name


def declared(root):
    """Every name that a file of specs/ declares at its own level or in a module, a record or a data type."""
    names = collections.defaultdict(set)
    for path in glob.glob(os.path.join(root, "crates/*/specs/**/*.antt"), recursive=True):
        text = without_comments(read(path))
        for m in list(HEAD.finditer(text)) + list(RECORD.finditer(text)):
            names[m.group(1)].add(path)
    return names


# Lemmas that port.py respelled already, and which would fall together with their function: the crate and the file that declare each.
SPELLED = {
    "part_in": "attribute_values.specs.Tests",
    "kept_in": "attribute_marks.specs.Turns",
    "all_fair": "document_laws.specs.Check",
    "head_in": "element_head.specs.Ends",
    "end_on": "closing.specs.Ways",
    "is_cut": "attribute_defaults.specs.Ways",
    "gap_within": "rules_laws.specs.Gaps",
}


def of_file(path, text):
    """What is respelled in this file alone: the lemmas of SPELLED that it declares or imports."""
    here = {}
    for name, module in SPELLED.items():
        crate, file = module.split(".specs.")
        own = path.endswith(f"crates/{crate}/specs/{file}.antt")
        if own or re.search(r"use Rattle\." + re.escape(module) + r"\.\{[^}]*(?<![\w-])" + name + r"(?![\w-])", text):
            here[name] = name + "_lem"
    return here


OWN = set()


def of_others(text):
    """The names that this file brings from the toolchain's libraries: they keep their spelling."""
    kept = set()
    for m in re.finditer(r"(?m)^\s*(?:pub |ghost )*use ([^\s{};]+?)(?:\.\{([^}]*)\})?(?: as ([^\s;]+))?(?=[\s;]|$)", text):
        parts = m.group(1).split(".")
        if parts[0] == "Rattle" and len(parts) > 1 and parts[1] in OWN:
            continue
        for it in (m.group(2) or "").split(","):
            kept |= set(re.findall(W, it))
        kept |= set(parts)
        if m.group(3):
            kept.add(m.group(3))
    return kept


def main(argv):
    root = "."
    check = "--check" in argv
    OWN.update(os.listdir(os.path.join(root, "crates")))
    names = declared(root)
    turned = {n: plain(n) for n in names if plain(n) != n}
    # a lemma that would get its function's name
    groups = collections.defaultdict(set)
    for n in names:
        groups[plain(n)].add(n)
    for new, olds in groups.items():
        lemmas = [n for n in olds if "-" in n and n[0].islower()]
        if len(olds) > 1:
            for n in lemmas:
                turned[n] = new + "_lem"
            rest = [n for n in olds if n not in lemmas]
            if len(rest) > 1 or len(lemmas) > 1:
                print("together:", new, sorted(olds))
    paths = glob.glob(os.path.join(root, "crates/*/specs/**/*.antt"), recursive=True) + glob.glob(os.path.join(root, "crates/*/proofs/**/*.antt"), recursive=True)
    paths += glob.glob(os.path.join(root, "crates/*/src/**/*.rt"), recursive=True)
    changed = 0
    for path in sorted(paths):
        text = read(path)
        proof = "/proofs/" in path
        code = path.endswith(".rt")
        out, last = [], 0
        became = collections.defaultdict(set)
        kept = of_others(text)
        here = {**of_file(path, text), **{it: it for it in kept}}
        # names of the file's own that nothing declares: they keep apart from what the file has besides
        taken = {turned.get(m.group(0), m.group(0)) for m in TOKEN.finditer(text)}
        for m in TOKEN.finditer(text):
            t = m.group(0)
            new = t
            if t.startswith(("--", "//")):
                new = re.sub(r"`(" + W + ")`", lambda g: "`" + turned.get(g.group(1), g.group(1)) + "`", t)
                new = re.sub(r"(?<![\w-])[a-z][a-z0-9]*(?:[A-Z][A-Za-z0-9]*)+(?:-[A-Za-z0-9]+)*(?![\w-])", lambda g: turned.get(g.group(0), g.group(0)), new)
            elif t[0] in "\"'«" or t[:2] in ('b"', "b'"):
                pass
            elif proof and text[m.start() - 1 : m.start()] == "." and "-" in t:
                before = re.search(r"(" + W + r")\.$", text[max(0, m.start() - 60) : m.start()])
                alias = before and re.search(r"(?m)^use [^\n]* as " + re.escape(before.group(1)) + r"\s*$", text) and before.group(1) != "tie" and before.group(1) not in kept and not before.group(1).endswith("lts")
                if alias:
                    new = turned.get(t, t)
                became[new].add(t)
            else:
                after_dot = text[m.start() - 1 : m.start()] == "."
                if after_dot and not proof:
                    way = re.search(r"((?:" + W + r"\.)+)$", text[max(0, m.start() - 120) : m.start()])
                    if way and way.group(1).split(".")[0] in kept:
                        out += [text[last : m.start()], t]
                        last = m.end()
                        continue
                new = here.get(t) or turned.get(t)
                if new is None:
                    new = t
                    if not code and not proof and ("-" in t or re.match(r"[a-z][a-z0-9]*[A-Z]", t)):
                        new = plain(t)
                        if new != t and new in taken and not after_dot:
                            new += "_here"
                if not after_dot:
                    became[new].add(t)
            out.append(text[last : m.start()])
            out.append(new)
            last = m.end()
        out.append(text[last:])
        for new, olds in became.items():
            if len(olds) > 1 and not code:
                print("falls together:", path, new, sorted(olds))
        done = "".join(out)
        if done != text:
            changed += 1
            if not check:
                with open(path, "w", encoding="utf-8", newline="") as it:
                    it.write(done)
    print(f"{changed} files, {len(turned)} names")
    return 0


if __name__ == "__main__":
    raise SystemExit(main(sys.argv[1:]))
