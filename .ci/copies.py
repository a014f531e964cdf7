"""The texts by which one check tries edits. Beside a function is a copy of it for each edit of its body, each under a name of its own. The functions that no
edit changes are there by their statements alone. A function is proved from the contracts of what it calls, so that a copy is proved there from just what the
function is proved from in its crate."""
import argparse, glob, hashlib, os, re, runpy

where = argparse.Namespace(**runpy.run_path(f"{os.path.dirname(os.path.realpath(__file__))}/edits.py"))
# A function by its statement: in place of its proof there is a hole, of any type, so that a check does not print the statement as what is left to prove.
BY_STATEMENT = """use Rattle.{crate}.proofs.{path}.Statement as stated

taken : {{A : Type 2}} → A
taken = ?

pub {name}_spec : {{M : Type 1}} → stated.statement M
{name}_spec = taken
"""
# An answer to a goal that no function has. For each goal that a check leaves open it searches once more, to offer a file for the function's proof; but for none
# of a function that has a refused answer. The refusal of this one does not change whether a goal is open.
REFUSED = """pub {answer} : {goal}.{answer}
{answer} c = tt
"""

# An answer to a goal that was left beside another one when an edit was tried before: a hole, which is no proof. One goal is enough to refuse an edit, and the
# prover looks for that one alone then.
TAKEN = """pub {name} : {goal}.{name}
{name} = ?
"""

def functions(crate):
    """The crate's functions, as the library that was built of it names them."""
    return {*re.findall(rf'"(?:part/)?Rattle-{crate.name}-proofs\.([^"]*)\.Code"', where.text_of(f"{crate.rlib}/toolchain/checked.json"))}

def name_in(functions, at):
    """What the crate's library names a function, or None where that is not known."""
    found = [it for it in functions if re.fullmatch(at.own, f"proofs/{it.replace('.', '/')}/")]
    return found[0] if len(found) == 1 else None

def files_of(crate, name):
    """The files of a function's proof, by their paths in the crate."""
    found = glob.glob(f"{glob.escape(crate.folder)}/proofs/{name.replace('.', '/')}/*.antt")
    return {os.path.relpath(it, crate.folder): where.text_of(it) for it in found}

def with_refused(crate, name, text):
    """A function's answers with one that is refused: their text, or None where it has others and none that names its goals."""
    goal = re.search(r"^use \S+\.Goals as (\S+)$", text or f"use Rattle.{crate.name}.proofs.{name}.Goals as goal", re.M)
    return goal and f"{text or f'{goal[0]}{chr(10)}'}\n{REFUSED.format(answer=where.REFUSED, goal=goal[1])}"

def with_taken(text, names):
    """A function's answers, one of them refused, with holes for these goals, each where its answer is; and the goals that have a hole now: those that have no
    answer or one of the usual form."""
    goal, done = re.search(rf"^pub {where.REFUSED} : (\S+)\.", text, re.M)[1], []
    for name in names:
        hole, word = TAKEN.format(name=name, goal=goal), re.escape(name)
        # (an answer ends before an empty line, or of one that begins another declaration)
        answer = re.search(rf"^pub {word} : {goal}\.{word}\n(?:(?:{word} |[ )}}\]])[^\n]*\n)+", text, re.M)
        if answer or not re.search(rf"^(?:pub )?{word} ", text, re.M):
            text = f"{text[:answer.start()]}{hole}{text[answer.end():]}" if answer else f"{text}\n{hole}"
            done.append(name)
    return text, tuple(done)

def proofs_in(crate, functions, at):
    """Below which name the proof is of a function that is edited where it is, or None where that is not known."""
    found = {os.path.relpath(it, f"{crate.folder}/proofs").replace("/", ".") for it in glob.glob(f"{glob.escape(crate.folder)}/proofs/**/", recursive=True)}
    found = [it for it in found if re.fullmatch(at.folder, f"proofs/{it.replace('.', '/')}/")] if at.in_cycle else [name_in(functions, at)]
    return found[0] if len(found) == 1 and not at.calls_itself else None

def of_cycle(crate, at):
    """The files of the proof of a function's cycle of calls, by their paths in the crate: none of a function that is in none."""
    found = glob.glob(f"{glob.escape(crate.folder)}/proofs/**/+{at.cycle}/*.antt", recursive=True) if at.in_cycle else []
    return [os.path.relpath(it, crate.folder) for it in found]

class Copy:
    """A function with an edit, or as it is, under another name: its text, the files of its proof by their paths, and which the edit changes."""
    def __init__(self, crate, name, at, edit, new):
        texts = where.applied(crate, [edit]) if edit else {}
        text = texts.get(at.path) or where.text_of(f"{crate.folder}/{at.path}")
        there = where.function_of(crate, at.path, text, [*where.HEAD.finditer(text)][at.number])
        lines = "".join(text.splitlines(True)[there.lines.start - 1 : there.lines.stop - 1])
        below = name.rpartition(".")[0]
        self.at, self.edit, self.new, self.text = at, edit, new, re.sub(rf"\bfn {at.name}\b", f"fn {new}", lines, count=1)
        self.name, self.proof, self.changed = f"{below}.{new}" if below else new, {}, set()
        for path, proof in files_of(crate, name).items():
            own, copied = (f"Rattle.{crate.name}.proofs.{it}." for it in (name, self.name))
            to = f"proofs/{self.name.replace('.', '/')}/{os.path.basename(path)}"
            self.proof[to] = texts.get(path, proof).replace(own, copied)
            self.changed |= {to} if path in texts else set()

def drawn(crate, group, edits):
    """One of these edits, by their names: of its function an unchanged copy is beside the others. Its proof waits for no function that is edited there."""
    cycles, stay = where.cycles_of(crate), [it for it in group.values() if not it.has_copies]
    return min([it for it in edits if where.is_apart(group[it], stay, cycles)] or edits, key=lambda it: hashlib.sha256(os.path.basename(it).encode()).digest())

def copies_of(crate, functions, group):
    """The copies that one check tries of a group of edits. The last one is unchanged."""
    found = [(it, at, name_in(functions, at)) for it, at in group.items() if at.has_copies]
    made = [Copy(crate, name, at, edit, f"{at.name}_edit{number}") for number, (edit, at, name) in enumerate(found) if name]
    if made:
        at = group[drawn(crate, group, [it.edit for it in made])]
        made.append(Copy(crate, name_in(functions, at), at, None, f"{at.name}_as_it_is"))
    return made

def by_statement(crate, functions, path, text, edited):
    """A file's text in which the functions that are not edited have their statements, their bodies a loop that never ends, since nothing of a body is needed
    there but, in a crate that names `dyn`, which values a `dyn` type has; and what is in place of their proofs, by path, None for a file that is gone. With
    such a body a function of a cycle of calls is in none: it is written so where none of that cycle is edited."""
    files, bodies, gone, folders, cycles = {}, [], [], {it.folder for it in edited}, {it.cycle for it in edited}
    names_dyn = any(re.search(r"\bdyn\b", where.text_of(it)) for it in glob.glob(f"{glob.escape(crate.folder)}/src/**/*.rt", recursive=True))
    for head in where.HEAD.finditer(text):
        at = where.function_of(crate, path, text, head)
        stays = at and (at.cycle in cycles or names_dyn if at.in_cycle else at.folder in folders)
        name = at and not stays and name_in(functions, at)
        # (of a trait one that has no body has no proof; one that calls itself has it under another name, and calls itself no more)
        if name and at.body[0] >= max(bodies, default=(0, 0))[1] and not re.search(r";\s*\n", text[head.start() : at.body[0]]):
            below, dot, last = name.rpartition(".")
            files |= dict.fromkeys([*files_of(crate, name), *(files_of(crate, f"{below}{dot}+{last}") if at.calls_itself else of_cycle(crate, at))])
            files[f"proofs/{name.replace('.', '/')}/Proof.antt"] = BY_STATEMENT.format(crate=crate.name, path=name, name=last)
            bodies.append(at.body)
            gone += [it.span() for it in re.finditer(r"^ *#\[cycle\(\w+\)\]\n", text[: head.start()], re.M)][-1:] if at.in_cycle else []
    texts = [(start, end, f"\n    loop {{}}\n{text[:end].rpartition(chr(10))[2]}") for start, end in ([] if names_dyn else bodies) if start < end]
    for start, end, new in sorted([*texts, *((start, end, "") for start, end in gone)], reverse=True):
        text = f"{text[:start]}{new}{text[end:]}"
    return text, files

def of_group(crate, functions, group, left={}):
    """What a check of a group of edits has in place of the crate's own files, by path, None for a file that is gone; which of these an edit changes; where
    each edit is there; and where the copy is that has none. Or None where the edits cannot be tried together. Where an edit had more goals
    than one `left` before, the first alone is tried, where its function is in no cycle of calls."""
    made, stay = copies_of(crate, functions, group), {it: at for it, at in group.items() if not at.has_copies}
    if (texts := where.applied(crate, [*stay])) is None:
        return None
    files, places = dict(texts), {}
    for path in sorted(os.path.relpath(it, crate.folder) for it in glob.glob(f"{glob.escape(crate.folder)}/src/**/*.rt", recursive=True)):
        text, stated = by_statement(crate, functions, path, texts.get(path) or where.text_of(f"{crate.folder}/{path}"), [*stay.values()])
        own = [it for it in made if it.at.path == path]
        files |= {**stated, path: beside(crate, path, text, own)}
        places |= places_in(crate, path, files[path], own, stay)
    files |= {path: it for copy in made for path, it in copy.proof.items()}
    asked = [*((it.name, it.edit) for it in made), *((proofs_in(crate, functions, at), it) for it, at in stay.items())]
    for name, at, before in [(name, places[it], left.get(it, ())) for name, it in asked]:
        answers, proof = (f"proofs/{(name or '').replace('.', '/')}/{it}.antt" for it in ("Answers", "Proof"))
        of_crate = f"{crate.folder}/{answers}"
        text = files.get(answers) or (where.text_of(of_crate) if os.path.isfile(of_crate) else "")
        if name and proof not in files and not os.path.isfile(f"{crate.folder}/{proof}") and (more := with_refused(crate, name, text)):
            text_taken, at.taken = with_taken(more, () if at.in_cycle else before[1:])
            at.asked = before[0] if at.taken else None
            files[answers], at.made = text_taken, None if text else answers
    changed = {path for it in (texts, *(copy.changed for copy in made)) for path in it} | {it.at.path for it in made}
    unchanged = places.pop(None, None)
    return argparse.Namespace(files=files, changed=changed, places=places, unchanged=unchanged)

def places_in(crate, path, text, made, stay):
    """Where in a file's text the copies are, by their edits, and the edited functions that have none."""
    heads, names = [*where.HEAD.finditer(text)], {it.new for it in made}
    copied, own = {it[2]: it for it in heads}, [it for it in heads if it[2] not in names]
    found = {it.edit: copied[it.new] for it in made} | {edit: own[at.number] for edit, at in stay.items() if at.path == path}
    return {edit: where.function_of(crate, path, text, head) for edit, head in found.items()}

def beside(crate, path, text, made):
    """A file's text with each of these copies after the function that it is of."""
    heads, lines = [*where.HEAD.finditer(text)], text.splitlines(True)
    for copy in sorted(made, key=lambda it: it.at.number, reverse=True):
        lines.insert(where.function_of(crate, path, text, heads[copy.at.number]).lines.stop - 1, f"\n{copy.text}")
    return "".join(lines)
