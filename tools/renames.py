#!/usr/bin/env python3
"""Gives a checkout that was written with the old words of specs the new ones of tools/renames.sed: tools/renames.py FOLDER

The list alone renames a word wherever it stands. This looks at the imports of each file, so that a word is renamed only where it
comes from the module that the list names for it; where two new words meet in a file, that of a tree is qualified by its module. In
code only clauses, ghost items and imports are renamed. It goes with the list, when nothing is left that has the old words."""
import os
import re
import sys

LIST = os.path.join(os.path.dirname(os.path.realpath(__file__)), "renames.sed")
# What a module is called where its words are qualified.
ALIASES = {"Rattle.f66_tree.specs.Syntax": "f66", "Rattle.rat_tree.specs.Syntax": "ratfor_tree"}
OLD_MODULES = {"Rattle.f66_tree.specs.Syntax": "Rattle.f66_tree.specs.Forms", "Rattle.rat_tree.specs.Syntax": "Rattle.rat_tree.specs.Commands"}

# What a word of the logic is made of, but for operators.
LETTER = r"[\w'\-◌·]"
USE = re.compile(r"\buse (Rattle\.[\w.'\-]+?)(?:\.\{([^}]*)\}| as (\w+))(?=\s|;|$)", re.S)
DEFINED = re.compile(r"^\s*(?:abbrev |unfoldable )?(?:pub )?(?:data |record )?([\w'\-◌]+)\s*(?::|\(|\{|where)|^\s+([A-Z][\w'\-]*)\s*:\s", re.M)
# Where a part of a source file begins that the logic reads.
GHOST = re.compile(r"\b(?:requires|ensures)\b|\bghost (?!use\b)\w+|#!?\[tactic|\bghost use\b")


def read_list():
    """The crates and types that are renamed wherever they stand, and the words of each module by its old name."""
    plain, words, section = {}, {}, None
    for line in open(LIST, encoding="utf-8"):
        heading = re.match(r"# (\w+), (\w+)", line)
        rename = re.match(r"s/\\b([^\\]+)\\b/([^/]+)/g", line)
        if heading:
            module = f"Rattle.{heading[1]}.specs.{heading[2]}"
            section = words.setdefault(OLD_MODULES.get(module, module), {})
        elif line.startswith("# crates"):
            section = plain
        elif line.startswith("#"):
            section = None
        elif rename and section is not None:
            section[rename[1]] = rename[2]
    return plain, words


def without_text(text, source):
    """The pieces of a file, and whether each is neither a comment nor a quoted text."""
    comment = "//" if source else "--"
    pattern = re.compile(r'"(?:\\.|[^"\\])*"|' + (comment + r"[^\n]*" if source else r"(?:(?<=\s)|^)" + comment + r"[^\n]*"), re.M)
    at = 0
    for found in pattern.finditer(text):
        yield text[at:found.start()], True
        yield found[0], False
        at = found.end()
    yield text[at:], True


def of_logic(pieces):
    """Of a source file's pieces those parts that the logic reads: each part, and whether it is one."""
    closing, depth = None, 0
    for text, is_code in pieces:
        if not is_code:
            yield text, False
            continue
        at = 0
        while at < len(text):
            if closing is None:
                found = GHOST.search(text, at)
                if not found:
                    yield text[at:], False
                    break
                yield text[at:found.start()], False
                closing = ";" if found[0] == "ghost use" else "]" if "tactic" in found[0] else "}"
                depth, start, at = 0, found.start(), found.end()
            else:
                start = at
            while at < len(text) and closing is not None:
                sign = text[at]
                at += 1
                depth += (sign == "{") - (sign == "}") if closing == "}" else 0
                if sign == closing and depth == 0 or closing == "}" and sign == ";" and depth == 0:
                    closing = None
            yield text[start:at], True


def imports(code):
    """The names that a file imports, each with its module and its name there; and the modules that it names."""
    names, modules = {}, {}
    for module, listed, alias in (found.groups() for found in USE.finditer(code)):
        if alias:
            modules[alias] = module
            continue
        for item in filter(None, (item.strip() for item in listed.split(","))):
            there, _, here = item.partition(" as ")
            names[here or there] = (module, there)
            modules.setdefault(here or there, f"{module}.{there}")
    return names, modules


class File:
    """What becomes of the words of one file."""

    def __init__(self, module, code, words):
        self.words, self.own = words, words.get(module, {})
        self.names, self.modules = imports(code)
        self.new, self.qualified = dict(self.own), {}
        defined = {one or other for one, other in DEFINED.findall(code)}
        taken = {self.own.get(name, name) for name in defined}
        taken |= {name for name, (of, there) in self.names.items() if there not in words.get(of, {})}
        for name, (of, there) in sorted(self.names.items(), key=lambda row: "rat_tree" in row[1][0]):
            new = words.get(of, {}).get(there)
            if new is None or name != there:
                continue
            if new in taken:
                self.qualified.setdefault(of, []).append(name)
                new = f"{self.alias(of)}.{new}"
            taken.add(new)
            self.new[name] = new

    def alias(self, module):
        """What a module is called in this file."""
        for alias, named in self.modules.items():
            if named == module and alias not in self.names:
                return alias
        new = {old: new for new, old in OLD_MODULES.items()}.get(module, module)
        return ALIASES.get(new, module.split(".")[-1].lower())

    def renamed(self, part):
        """A part of the logic with its new words."""
        made, at = [], 0
        for found in USE.finditer(part):
            made += [self.body(part[at:found.start()]), self.use(*found.groups())]
            at = found.end()
        return "".join([*made, self.body(part[at:])])

    def use(self, module, listed, alias):
        """An import with the new words."""
        target = {old: new for new, old in OLD_MODULES.items()}.get(module, module)
        if alias:
            return f"use {target} as {alias}"
        kept = [item.strip() for item in listed.split(",") if item.strip() and item.strip() not in self.qualified.get(module, [])]
        new = [re.sub(r"^\S+", lambda word: self.words.get(module, {}).get(word[0], word[0]), item) for item in kept]
        lines = [f"use {target}.{{{', '.join(new)}}}"] if new else []
        if module in self.qualified and self.alias(module) not in self.modules:
            lines.append(f"use {target} as {self.alias(module)}")
        return "\n".join(lines)

    def body(self, text):
        """What stands between imports, with the new words."""
        for alias, module in self.modules.items():
            for old, new in self.words.get(module, {}).items():
                text = re.sub(rf"(?<!{LETTER})(?<!\.){re.escape(alias)}\.{re.escape(old)}(?!{LETTER})", f"{alias}.{new}", text)
        for new, old in OLD_MODULES.items():
            text = re.sub(re.escape(old) + r"(?![\w'\-])", new, text)
        if self.new:
            words = "|".join(sorted(map(re.escape, self.new), key=len, reverse=True))
            text = re.sub(rf"(?<!{LETTER})(?<![.:])({words})(?!{LETTER}|\.[a-z])", lambda found: self.word(found, text), text)
        return text

    def word(self, found, text):
        """A word's new one, but for the names of fields."""
        before, after = text[:found.start()], text[found.end():]
        is_field = re.search(r"\bpub $", before) and re.match(r"\s*:", after)
        is_given = re.match(r"\s+=\s", after) and re.search(r"([{;]\s*|\n\s+)$", before)
        return found[0] if found[0] not in self.own and (is_field or is_given) else self.new[found[0]]


def rename_file(path, words):
    """One file of the logic or of code."""
    source = path.endswith(".rt")
    text = open(path, encoding="utf-8").read()
    pieces = list(without_text(text, source))
    module = re.search(r"crates/(\w+)/(specs|proofs)/(.*)\.antt$", path)
    module = f"Rattle.{module[1]}.{module[2]}.{module[3].replace('/', '.')}" if module else None
    file = File(module, "".join(piece for piece, is_code in pieces if is_code), words)
    parts = of_logic(pieces) if source else pieces
    new = "".join(file.renamed(part) if is_logic else part for part, is_logic in parts)
    if new != text:
        open(path, "w", encoding="utf-8").write(new)


def files(folder, endings):
    """The files below a folder with one of these endings."""
    for at, folders, names in os.walk(folder):
        folders[:] = [name for name in folders if name not in ("out", ".git")]
        yield from (os.path.join(at, name) for name in sorted(names) if name.endswith(endings))


def rename_module(specs, old, new):
    """A file of specs, and the line of its folder's Lib that names it."""
    if not os.path.exists(os.path.join(specs, f"{old}.antt")):
        return
    os.rename(os.path.join(specs, f"{old}.antt"), os.path.join(specs, f"{new}.antt"))
    lib = os.path.join(specs, "Lib.antt")
    text = open(lib, encoding="utf-8").read()
    open(lib, "w", encoding="utf-8").write(re.sub(rf"\bmod {old}\b", f"mod {new}", text))


def rename_plain(folder, plain):
    """The crates and types that are renamed wherever they stand."""
    pattern = re.compile(r"(?<!\w)(" + "|".join(sorted(plain, key=len, reverse=True)) + r")(?!\w)")
    for path in files(folder, (".antt", ".rt", ".edit", ".txt", ".sh", ".py", ".md")):
        text = open(path, encoding="utf-8").read()
        new = pattern.sub(lambda found: plain[found[0]], text)
        if new != text:
            open(path, "w", encoding="utf-8").write(new)
    for old, new in plain.items():
        if os.path.isdir(os.path.join(folder, "crates", old)):
            os.rename(os.path.join(folder, "crates", old), os.path.join(folder, "crates", new))


def main():
    folder = sys.argv[1]
    plain, words = read_list()
    for path in files(folder, (".antt", ".rt")):
        rename_file(path, words)
    for new, old in OLD_MODULES.items():
        rename_module(os.path.join(folder, "crates", old.split(".")[1], "specs"), old.split(".")[-1], new.split(".")[-1])
    rename_plain(folder, plain)


if __name__ == "__main__":
    main()
