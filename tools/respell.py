#!/usr/bin/env python3
"""Respells the repository's own names as today's Rattle has them: words in snake case, types in camel case.

usage: tools/respell.py        once, at the top of a checkout on which the kit's port.py has run and nothing is committed since

port.py leaves a name of the repository's own as it was unless the kit's library has the same spelling: `table-refusal`, `Build-says`.
Here each of them becomes `table_refusal`, `BuildSays`. A name of the library, and one that Rattle makes, stays: those are what a file
imports from a module that is not the repository's, what stands behind the name of such a module, and in the proofs of functions
whatever is declared nowhere in specs/ or in a file of laws. port.py turns no must-fail edit and no page either: each edit gets the
words that its file has now, by laying the file of the last commit beside the one of the work tree, word by word; in the pages the
names in code spans are respelled.

It fails where two names would fall together, and lists the edits whose old text does not stand exactly once.
"""
import difflib
import glob
import os
import re
import subprocess
import sys

WORD = re.compile(r'[^\s(){}.;,@"«»]+')
DASHED = re.compile(r"[A-Za-z][\w'→]*(?:-[\w'→]+)+")
USE = re.compile(r"^(?:pub )?use +([^\s;{]+?)(?:\.\{([^}]*)\})?(?: as (\S+))?;?$", re.M)
GHOST_USE = re.compile(r"^ghost use +([^\s;{]+?)(?:\.\{([^}]*)\})?(?: as (\S+))?;", re.M)
CLAUSE = re.compile(r"(?:requires|ensures)\s*\*?\s*(?:\w+\s*)?\{|ghost\s+\w+\s*:\s*\{")
CRATES = sorted(os.path.basename(c) for c in glob.glob("crates/*") if os.path.isdir(c + "/src"))
# English words that stand in comments, and are names too
ENGLISH = {"semi-deterministic", "left-over"}


def respelled(word):
    first = word.split("-")[0]
    if word[0].isupper() and len(first) > 1 and first[1].islower():
        return "".join(part[:1].upper() + part[1:] for part in word.split("-"))
    return word.replace("-", "_")


def own_module(path):
    """Whether a path names a module of definitions or laws of the repository's own."""
    parts = path.split(".")
    if len(parts) < 4 or parts[0] != "Rattle" or parts[1] not in CRATES:
        return False
    return parts[2] == "specs" and parts[3] not in ("contracts", "declared") or parts[2] == "proofs" and len(parts) == 4


def uses(text, pattern):
    """What a file imports: the names that are the library's, and the names of modules that are."""
    names, modules = set(), set()
    for path, items, alias in pattern.findall(text):
        if own_module(path):
            continue
        if not items:
            modules.add(alias or path.split(".")[-1])
        for item in items.split(","):
            item = item.strip()
            if item:
                names.add(item.split(" as ")[0])
    return names, modules


def parts(text):
    """A text of antt as pieces: (is code, piece)."""
    out, at = [], 0
    for m in re.finditer(r"(?<![^\s(){}.;,])--[^\n]*", text):
        out.append((True, text[at : m.start()]))
        out.append((False, m.group()))
        at = m.end()
    out.append((True, text[at:]))
    return out


def declared():
    """Every name with a dash of specs/ and of the files of laws, and those that a signature or a field has."""
    every, signed = set(), set()
    for path in glob.glob("crates/*/specs/*.antt") + glob.glob("crates/*/proofs/*.antt"):
        text = open(path, encoding="utf-8").read()
        names, modules = uses(text, USE)
        for is_code, piece in parts(text):
            if not is_code:
                continue
            for m in WORD.finditer(piece):
                word = m.group()
                if DASHED.fullmatch(word) and word not in names and not behind(piece, m.start(), modules):
                    every.add(word)
        for m in re.finditer(r"^ *(?:abbrev |unfoldable )*(?:pub )?(?:abbrev |unfoldable |record |data )*(\S+)(?= .*:|$)", text, re.M):
            if DASHED.fullmatch(m[1]) and m[1] in every:
                signed.add(m[1])
    return every, signed


def behind(text, at, modules):
    """Whether the word at a place stands behind the name of one of these modules."""
    if at == 0 or text[at - 1] != ".":
        return False
    m = re.search(r"([^\s(){};,@\"«».]+)\.$", text[:at])
    return bool(m) and m[1] in modules


def respell_antt(text, own, signed, names, modules, everything):
    out = []
    for is_code, piece in parts(text):
        def turn(m):
            word = m.group()
            if not DASHED.fullmatch(word):
                return word
            if not is_code:
                return respelled(word) if word in signed and word not in ENGLISH else word
            if word not in own and not everything:
                return word
            if behind(piece, m.start(), modules):
                return word
            if word in names:
                return word
            return respelled(word)
        out.append(WORD.sub(turn, piece))
    return "".join(out)


def respell_rt(text, own):
    names, _ = uses(text, GHOST_USE)
    spans = [m.span() for m in GHOST_USE.finditer(text)]
    for m in CLAUSE.finditer(text):
        deep, i = 1, m.end()
        while deep:
            deep += (text[i] == "{") - (text[i] == "}")
            i += 1
        spans.append((m.end(), i - 1))
    spans += [m.span(1) for m in re.finditer(r"`([^`\n]+)`", text)]
    out, at = [], 0
    for begin, end in sorted(spans):
        if begin < at:
            continue
        out.append(text[at:begin])
        out.append(WORD.sub(lambda m: respelled(m.group()) if m.group() in own and m.group() not in names else m.group(), text[begin:end]))
        at = end
    return "".join(out) + text[at:]


def committed(path):
    return subprocess.run(["git", "show", "HEAD:" + path], capture_output=True, text=True, check=True).stdout


TOKEN = re.compile(r"[(){}.;,@\"«»]|" + WORD.pattern)


class Turned:
    """How a file's words of the last commit read now, and where they stand."""

    def __init__(self, path):
        self.old, self.new = committed(path), open(path, encoding="utf-8").read()
        self.a, self.b = list(TOKEN.finditer(self.old)), list(TOKEN.finditer(self.new))
        a, b = [m.group() for m in self.a], [m.group() for m in self.b]
        self.words, self.place = {}, {}
        for tag, i, j, k, l in difflib.SequenceMatcher(None, a, b, autojunk=False).get_opcodes():
            if j - i == l - k:
                for x in range(i, j):
                    self.place[x] = k + x - i
                    if tag == "replace":
                        self.words.setdefault(a[x], b[k + x - i])

    def found(self, text):
        """The text of today's file that stands where a text stood in the last commit's, if both ends are known."""
        if self.old.count(text) != 1:
            return None
        at = self.old.index(text)
        inside = [x for x, m in enumerate(self.a) if at <= m.start() and m.end() <= at + len(text)]
        if not inside or inside[0] not in self.place or inside[-1] not in self.place:
            return None
        begin, end = self.b[self.place[inside[0]]].start(), self.b[self.place[inside[-1]]].end()
        it = self.new[begin:end]
        lead = len(text) - len(text.lstrip())
        return None if "\n" in it else text[:lead] + it

    def text(self, text, own):
        def turn(m):
            word = m.group()
            if word in self.words:
                return self.words[word]
            word = re.sub("′", "'", word)
            return respelled(word) if word in own else word
        return WORD.sub(turn, text)


def tight(text):
    """Projections without blanks and without brackets of their own."""
    while True:
        it = re.sub(r"\(([^\W\d]\w*(?:\.\w+)*) \.(\w+)\)", r"\1.\2", re.sub(r"\(([^\W\d]\w*(?:\.\w+)*(?: \.\w+)*) \.(\w+)\)", lambda m: "(" + m[1].replace(" .", ".") + " ." + m[2] + ")", text))
        it = re.sub(r"((?:^|[^\w)'\s]) ?)([^\W\d]\w*(?:\.\w+)*) \.(\w+)", r"\1\2.\3", it)
        if it == text:
            return it
        text = it


def respell_edit(path, own, cache):
    text = open(path, encoding="utf-8").read()
    lines, bad, turned, target = [], [], None, ""
    for line in text.split("\n"):
        m = re.match(r"(file|old|new):( ?)(.*)$", line)
        if m and m[1] == "file":
            target = os.path.normpath(os.path.join(os.path.dirname(os.path.dirname(path)), m[3].strip()))
            if target not in cache:
                cache[target] = Turned(target)
            turned = cache[target]
        elif m:
            it = turned.found(m[3]) if m[1] == "old" else None
            if it is None:
                it = turned.text(m[3], own)
                it = tight(it) if target.endswith(".antt") else it
            if m[1] == "old" and turned.new.count(it) != 1:
                bad.append(f"{path}: stands {turned.new.count(it)} times: {it}")
            if m[1] == "new" and " ." in it:
                bad.append(f"{path}: a projection is left: {it}")
            line = m[1] + ":" + m[2] + it
        lines.append(line)
    open(path, "w", encoding="utf-8").write("\n".join(lines))
    return bad


def main():
    own, signed = declared()
    fallen = {}
    for word in sorted(own):
        fallen.setdefault(respelled(word), []).append(word)
    plain = set()
    for path in glob.glob("crates/*/specs/*.antt") + glob.glob("crates/*/proofs/*.antt"):
        for is_code, piece in parts(open(path, encoding="utf-8").read()):
            if is_code:
                plain |= set(WORD.findall(piece))
    for new, olds in fallen.items():
        if len(olds) > 1 or new in plain:
            print(f"look: {' '.join(olds)} as {new}" + (", which was there" if new in plain else ""))
    for path in sorted(glob.glob("crates/*/specs/*.antt") + glob.glob("crates/*/proofs/**/*.antt", recursive=True)):
        text = open(path, encoding="utf-8").read()
        names, modules = uses(text, USE)
        laws = os.path.basename(os.path.dirname(path)) in ("specs", "proofs")
        # what an import of the library renames keeps the library's name in the import, and has the new one everywhere else
        kept = {}
        def hide(m):
            if own_module(m[1]):
                return m.group()
            kept[f"\0{len(kept)}\0"] = m.group()
            return list(kept)[-1]
        shown = USE.sub(hide, text)
        renamed = {i.split(" as ")[1].strip() for _, items, _ in USE.findall(text) for i in items.split(",") if " as " in i}
        new = respell_antt(shown, own, signed, names - renamed, modules, laws)
        for mark, it in kept.items():
            it = re.sub(r" as ([^\s,}]+)", lambda m: " as " + (respelled(m[1]) if DASHED.fullmatch(m[1]) else m[1]), it)
            new = new.replace(mark, it)
        open(path, "w", encoding="utf-8").write(new)
    for path in sorted(glob.glob("crates/*/src/*.rt")):
        text = open(path, encoding="utf-8").read()
        open(path, "w", encoding="utf-8").write(respell_rt(text, own))
    bad, cache = [], {}
    for path in sorted(glob.glob("crates/*/must-fail/*.edit")):
        bad += respell_edit(path, own, cache)
    known = own | old_names()
    for path in ["README.md", "CONTRIBUTING.md"] + sorted(glob.glob("docs/*.md")):
        text = open(path, encoding="utf-8").read()
        span = lambda m: "`" + WORD.sub(lambda w: respelled(w.group()) if w.group() in known else w.group(), m[1]) + "`"
        open(path, "w", encoding="utf-8").write(re.sub(r"`([^`\n]+)`", span, text))
    for crate in CRATES:
        subprocess.run(["rt", "fmt"], cwd="crates/" + crate, stdout=subprocess.DEVNULL, check=False)
    print("\n".join(bad))
    print(f"respell: {len(own)} names, {len(bad)} texts of edits to mend by hand")


def old_names():
    """Names with a dash that the last commit declares in specs/ or in a file of laws."""
    listed = subprocess.run(["git", "ls-files", "crates"], capture_output=True, text=True, check=True).stdout.split("\n")
    found = set()
    for path in listed:
        if re.fullmatch(r"crates/\w+/(specs|proofs)/\w+\.antt", path):
            text = committed(path)
            for m in re.finditer(r"^ *(?:abbrev |unfoldable )*(?:pub )?(?:abbrev |unfoldable |record |data )*(\S+)(?= .*:|$)", text, re.M):
                if DASHED.fullmatch(m[1]):
                    found.add(m[1])
    return found


if __name__ == "__main__":
    sys.exit(main())
