"""What the refusal of a must-fail edit rests on, and `.ci/tried`, whose lines each name an edit, a sum of that, the day on which it was last refused, and what
was left of it then, which is in no sum.

It rests on the edit; on the function that it changes; on the heads, with their contracts, of what that names and of what the traits of its types may run;
on the types, constants and imports that it names; on its stored proof; and on the files of specs/ and proofs/ that any of these use. An edit that changes
no body of one function rests on all files of its crate. What is in other crates is in no sum, nor the kit: of what is imported from there the names
count, and not the modules that pass them on.
"""
import functools, glob, hashlib, os, re

TRIED = ".ci/tried"
WORD = re.compile(r"\w+")
ITEM = re.compile(r"^( *)(?:pub(?:\([^)]*\))? )?(?:unsafe )?(?:struct|enum|union|trait|type|const|static|macro_rules!)(?: mut)? (\w+)", re.M)
HEAD = re.compile(r"^( *)(?:pub(?:\([^)]*\))? )?(?:const )?(?:unsafe )?fn (\w+)", re.M)
BLOCK = re.compile(r"^(?:unsafe )?impl\b[^{]*\bfor\b([^{]*)\{.*?^\}", re.M | re.S)
GHOST = re.compile(r"\bghost use ([^;]*);")
USE = re.compile(r"^ *(?:pub(?:\([^)]*\))? )?use ([^;]*);", re.M)
ANTT_USE = re.compile(r"^(?:pub |unfoldable )*use +([^\n]*(?:\n[ \t}][^\n]*)*)", re.M)

def bare(text):
    """A text of Rattle or antt without its lines of comment."""
    return re.sub(r"^\s*(?://|--).*\n", "", text, flags=re.M)

def above(text, at):
    """Where the attributes of what begins there begin."""
    return re.search(r"(?:^(?! *//)[^\n]*[^{};\n]\n)*\Z", text[:at], re.M).start()

def end_of(text, found, opens):
    """Where the item ends that begins there: of a function where its body opens, after all its clauses, or at its semicolon; and else where the line that it
    is on closes it, or a later one."""
    if opens:
        first = re.compile(rf"^{found[1]}(?:\S[^\n]*)?\{{$|;$", re.M).search(text, found.start())
    else:
        first = re.compile(rf"(?<=[;}}])$|^{found[1]}[\]}})][^\n]*$", re.M).search(text, found.end())
    return first.end() if first else len(text)

class Texts:
    """The files of a crate, and what is in them under each name."""
    def __init__(self, folder):
        self.folder, self.name = folder, os.path.basename(folder)
        files = sorted(it for part in ("src", "specs", "proofs")
                       for it in glob.glob(f"{glob.escape(folder)}/{part}/**", recursive=True) if it.endswith((".rt", ".antt")))
        self.files = {}
        for it in files:
            with open(it, encoding="utf-8") as file:
                text = bare(file.read())
            self.files[os.path.relpath(it, folder)] = text if it.endswith(".rt") else self.by_name(text)
        self.heads, self.items, self.runs = {}, {}, {}
        for path, text in self.files.items():
            if path.endswith(".rt"):
                self.read(path, text)

    def read(self, path, text):
        """Notes the heads and the items of a file, each by its name, and by the types of its blocks `impl .. for` the heads that these have."""
        for found in HEAD.finditer(text):
            self.heads.setdefault(found[2], []).append((path, text[above(text, found.start()) : end_of(text, found, True)]))
        for found in ITEM.finditer(text):
            self.items.setdefault(found[2], []).append((path, text[above(text, found.start()) : end_of(text, found, False)]))
        for block in BLOCK.finditer(text):
            heads = [block[0].partition("{")[0], *(block[0][it.start() : end_of(block[0], it, True)] for it in HEAD.finditer(block[0]))]
            for word in WORD.findall(block[1]):
                self.runs.setdefault(word, []).append((path, "\n".join(heads)))

    def by_name(self, text):
        """A text of antt with the names that it imports of other crates at its end, in the place of the lines that import them."""
        others = [it for it in ANTT_USE.finditer(text) if not it[1].startswith(f"Rattle.{self.name}.")]
        for it in reversed(others):
            text = text[: it.start()] + text[it.end() + 1 :]
        # (a module that is imported whole is named by its path, or by the name that it is given)
        leaves = [re.sub(r"\s+", " ", it[1]).partition("{")[2].rstrip("} ") or it[1] for it in others]
        return text + "".join(f"use {it}\n" for it in sorted({name.strip() for line in leaves for name in line.split(",") if name.strip()}))

    def file_of(self, part, words):
        """The file of specs/ or proofs/ that a path of names leads to or into, if it is one of the crate's."""
        paths = [f"{part}/{'/'.join(words[:it])}.antt" for it in range(len(words), 0, -1)]
        return next((it for it in paths if it in self.files), None)

    @functools.lru_cache(maxsize=None)
    def used(self, path):
        """The files that one of specs/ or proofs/ uses, and all names on the paths to the crate's own."""
        files, names = set(), set()
        for line in ANTT_USE.findall(self.files[path]):
            of = re.match(rf"Rattle\.{self.name}\.(specs|proofs)\.([^\s{{]*)", line)
            words = of[2].strip(".").split(".") if of else []
            found = of and self.file_of(of[1], words)
            files |= {found} if found else set()
            names |= {*words}
        return frozenset(files), frozenset(names)

    def named(self, words):
        """What the items and heads that these words name are, and those that they name in turn: a set of paths and texts."""
        found, left, seen = set(), {*words}, set()
        while left:
            word = left.pop()
            seen.add(word)
            more = {*self.items.get(word, []), *(self.runs.get(word, []) if word in self.items else [])} - found
            found |= more
            left |= {it for _, text in more for it in WORD.findall(text) if it in self.items} - seen
        return found

    def attributes(self, path):
        """What the crate's root and a file say of themselves at their top."""
        tops = [it for it in ("src/lib.rt", "src/main.rt", path) if it in self.files]
        return {(it, line) for it in tops for line in re.findall(r"^#!\[.*?\]$", self.files[it], re.M | re.S)}

    def imports(self, path, said, is_own):
        """What a file imports of these words, the ghost imports and, of the function's own file, the others; and the files of specs/ and proofs/ that the
        ghost ones lead to."""
        found, files = set(), set()
        lines = [("ghost", it) for it in GHOST.findall(self.files[path])] + [("use", it) for it in USE.findall(self.files[path]) if is_own]
        for kind, line in lines:
            way, _, leaves = re.sub(r"\s+", " ", line).partition("{")
            names = [it.strip(" }") for it in leaves.split(",") if "◌" in it or {*WORD.findall(it)} & said]
            if not leaves and {*WORD.findall(way)[-1:]} & said:
                names = [""]
            is_others = kind == "ghost" and leaves and not way.startswith(f"Rattle.{self.name}.")
            found |= {(f"{kind} {path}", it if is_others else f"{way}{it}") for it in names}
            of = names and re.match(rf"Rattle\.{self.name}\.(specs|proofs)\.(.*)", way)
            files |= {self.file_of(of[1], WORD.findall(of[2]))} - {None} if of else set()
        return found, files

    def parts(self, edit, at):
        """All that the refusal of an edit in the body of this function rests on, as a set of what it is and its text."""
        text = self.text_at(at)
        words = {*WORD.findall(text), *WORD.findall(edit)}
        heads = {it for word in words for it in self.heads.get(word, [])}
        found = heads | self.named(words | {word for _, head in heads for word in WORD.findall(head)}) | {(at.path, text)} | self.attributes(at.path)
        said = {word for _, it in found for word in WORD.findall(it)}
        files = {it for it in self.files if re.match(at.folder, it)}
        for path in {path for path, _ in found}:
            more, led_to = self.imports(path, said, path == at.path)
            found, files = found | more, files | led_to
        for way in re.findall(r"\bproofs((?:::\w+)+)", "\n".join(it for _, it in found)):
            files |= {self.file_of("proofs", way.split("::")[1:])} - {None}
        return found | self.behind(files)

    def behind(self, files):
        """These files of specs/ and proofs/ with all that they use, and the heads and items that their uses name."""
        done, names = set(), set()
        while files - done:
            done.add(path := min(files - done))
            more, words = self.used(path)
            files, names = files | more, names | words
        items = self.named(names)
        return {(it, self.files[it]) for it in files} | items | {it for word in names for it in self.heads.get(word, [])}

    def text_at(self, at):
        """The function itself, without its lines of comment."""
        with open(f"{self.folder}/{at.path}", encoding="utf-8") as file:
            return bare("".join(file.read().splitlines(True)[at.lines.start - 1 : at.lines.stop - 1]))

    def sum_of(self, edit, at):
        """The sum of all that the refusal of an edit rests on: where it changes no function's body, of all the crate's files."""
        with open(edit, encoding="utf-8") as file:
            text = file.read()
        return hashlib.sha256(repr((text, sorted(self.parts(text, at) if at else self.files.items()))).encode()).hexdigest()[:16]

def tried():
    """The lines of `.ci/tried`: by the crate's and the edit's name the sum, the day and the goals that were left."""
    if not os.path.isfile(TRIED):
        return {}
    with open(TRIED, encoding="utf-8") as it:
        return {name: told for name, *told in (line.split() for line in it)}

def note(lines):
    """Writes `.ci/tried` anew, whole or not at all, without the edits that are gone."""
    there = {name: told for name, told in lines.items() if os.path.isfile("crates/{}/must-fail/{}.edit".format(*name.split("/")))}
    with open(f"{TRIED}.new", "w", encoding="utf-8") as it:
        it.writelines(f"{' '.join([name, *told])}\n" for name, told in sorted(there.items()))
    os.replace(f"{TRIED}.new", TRIED)
