"""Where a must-fail edit is, which edits of a crate one check can try, and what that check reports of each."""
import argparse, glob, os, re

# Why a refusal shows little, in the kit's text; and what it reports of a proof file then (a name of a goal that is gone, or what cites that proof).
LITTLE = "only because a proof file names what the edit took away"
NAMES = re.compile(r"has no field|is not in scope|has no `")
# The name of an answer to a goal that no function has, which a check is to refuse.
REFUSED = "no-goal-has-this-name"
# One check tries copies of this many edits at most.
MOST = 60
# Methods that are called also where nothing names them: by `?`, and by comparisons.
UNNAMED = {"from", "eq", "cmp", "partial_cmp"}
HEAD = re.compile(r"^( *)(?:pub(?:\(\w+\))? )?(?:const )?fn (\w+)", re.M)
ANY_HEAD = re.compile(r"\bfn \w")

def text_of(file):
    with open(file, encoding="utf-8") as it:
        return it.read()

def pairs_of(edit):
    """The files that an edit changes, each with an old and a new text."""
    path, old, pairs = "", "", []
    for line in text_of(edit).split("\n"):
        word, _, rest = line.partition(":")
        path, old = (rest.strip(), old) if word == "file" else (path, rest.removeprefix(" ")) if word == "old" else (path, old)
        if word == "new":
            pairs.append((path, old, rest.removeprefix(" ")))
    return pairs

def changed_part(text, old, new):
    """From where to where the text is another after the edit: what the old and the new text have in common at their ends stays."""
    before = len(os.path.commonprefix([old, new]))
    after = len(os.path.commonprefix([old[before:][::-1], new[before:][::-1]]))
    at = text.find(old)
    return at + before, at + len(old) - after

def above(text, head):
    """The heads of the impls and traits above a method, the nearest last."""
    return [*re.finditer(r"^(?:unsafe )?(?:impl|(?:pub(?:\(\w+\))? )?trait)\b[^{]*\{", text[: head.start()], re.M)]

def type_around(text, head):
    """How a check names the type that a method is of, with the trait that it implements: none of a function, and None where that is not known."""
    if not head[1]:
        return ""
    around = above(text, head)
    if not around or re.search(r"^\}", text[around[-1].end() : head.start()], re.M):
        return None
    words = re.sub(r"\s+", " ", around[-1][0].partition(" where")[0].rstrip("{ \n"))
    # (of `Box<dyn Wrapper>` the name is `BoxDynWrapper`)
    words = re.sub(r"\bBox<dyn (\w+)>", r"BoxDyn\1", words)
    of = re.search(r"(?<=<)[^<>]*(?:<[^<>]*>)?[^<>]*(?=> for )", words)
    while (bare := re.sub(r"<[^<>]*>", "", words)) != words:
        words = bare
    named = re.fullmatch(r"(?:.*\btrait (\w+)(?::.*)?|impl (?:(?:\w+::)*(\w+) for )?&?(?:mut )?(?:\w+::)*(\w+))", words)
    # (of `From<AllocError>` the name is `FromAllocError`, of `From<low::Fault>` `FromLowFault`, and of `impl<T> Source for T` it is `AnySource`)
    path = re.sub(r"(\w)(\w*)::", lambda it: it[1].upper() + it[2], re.sub(r"<.*>", "", of[0])) if of else ""
    given = re.sub(r"\W", "", path)
    is_any = named and named[2] and re.match(rf"(?:unsafe )?impl<[^>]*\b{named[3]}\b", around[-1][0])
    return named and (named[1] or ("Any" if is_any else named[3]) + (named[2] or "") + given)

def function_of(crate, path, text, head):
    """What a check reports of the function that begins here, or None where that is not known: its number in its file, its name, and whether and in
    which cycle of calls it is, or calls itself; whether a copy of it can be beside it; the name that `--only` takes; the folder that its proof has where it is
    in no cycle; how a check's line of it begins (a method's under the module of its type, which may be another than this file's); the folder of its proof, or of
    its cycle's, a file that was made there for the check alone, and where goals are taken there, the one that is tried, and these; its file, the words of its
    text, its lines, and its body's place there."""
    kind = type_around(text, head)
    # (an edit can begin on the head's own line, and that of a law can be empty)
    body = re.compile(rf"{head[1]}\S[^\n]*?\{{( [^\n]*\n.*?^{head[1]})\}}\n", re.M | re.S).match(text, head.start())
    body = body or re.compile(rf"^{head[1]}(?:\S[^\n]*)?\{{(\n.*?^{head[1]}|)\}}\n", re.M | re.S).search(text, head.start())
    if kind is None or not body:
        return None
    module = "" if path == "src/lib.rt" else path[4:-3].removesuffix("/mod").replace("/", "::") + "::"
    cycle = re.search(r"cycle\((\w+)\)", text[text.rfind("\n\n", 0, head.start()) : head.start()])
    under = rf"(?:\w+/)*{kind}/" if kind else module.replace("::", "/")
    calls_itself = not cycle and bool(re.search(rf"\b{head[2]}\b", body[1]) and glob.glob(f"{glob.escape(crate.folder)}/proofs/**/+{head[2]}", recursive=True))
    # (a cycle has one proof, and so has a function that calls itself)
    round_folder = rf"|(?:[^/]+/)*[+]{cycle[1]}" if cycle else rf"|{under}[+]{head[2]}" if calls_itself else ""
    proofs = rf"(?:{under}{head[2]}{round_folder})/"
    # (an attribute over several lines can have lines of comment)
    behind = text.rfind("\n\n", 0, head.start()) + 1
    start = behind + re.search(r"(?:^ *#\[[^][]*(?:\[[^][]*\][^][]*)*\]\n|^(?! *//)[^\n]*[^{};\n]\n)*\Z", text[behind : head.start()], re.M).start()
    number = len(HEAD.findall(text, 0, head.start()))
    # (what is a trait's has a place for no second, and one that calls itself would call the other)
    is_of_trait = kind and re.search(r"\btrait\b|\bfor\b", above(text, head)[-1][0])
    return argparse.Namespace(
        who=f"{path} {number}", number=number, name=head[2], in_cycle=bool(cycle), cycle=cycle and cycle[1], calls_itself=calls_itself,
        has_copies=not (cycle or is_of_trait or calls_itself), only=f"{kind}::{head[2]}" if kind else f"{module}{head[2]}", own=rf"(?:\./)?proofs/{under}{head[2]}/",
        begins=rf"^fn {crate.name}::{under.replace('/', '::')}{head[2]}: (.*)$", folder=rf"(?:\./)?proofs/{proofs}", made=None, asked=None, taken=(),
        path=path, words={*re.findall(r"\w+", text[start : body.end()])} - {head[2]},
        lines=range(text.count("\n", 0, start) + 1, text.count("\n", 0, body.end()) + 1), body=body.span(1))

def function_at(crate, path, text, old, new):
    """The function in whose body alone an edit changes this text, or None."""
    start, end = changed_part(text, old, new)
    heads = [*HEAD.finditer(text, 0, max(start, 0))] if text.count(old) == 1 and len(ANY_HEAD.findall(old)) == len(ANY_HEAD.findall(new)) else []
    at = heads and function_of(crate, path, text, heads[-1])
    return at if at and at.body[0] <= start <= end <= at.body[1] else None

def named(crate, edit):
    """The function that the edit's name names, with its type before it or not, where one function alone has that name in the files that it changes."""
    name, found = os.path.basename(edit).partition("__")[0], []
    for path in sorted({path for path, _, _ in pairs_of(edit) if path.startswith("src/") and os.path.isfile(f"{crate.folder}/{path}")}):
        text = text_of(f"{crate.folder}/{path}")
        found += [function_of(crate, path, text, it) for it in HEAD.finditer(text) if name in (it[2], f"{type_around(text, it)}_{it[2]}".lower())]
    return found[0] if len(found) == 1 else None

def place(crate, edit):
    """What `function_at` returns for an edit that changes the body of one function, and at most the proof of that function beside it. Else None."""
    texts, found, beside = {}, [], []
    for path, old, new in pairs_of(edit):
        if not os.path.isfile(f"{crate.folder}/{path}"):
            return None
        text = texts.get(path) or text_of(f"{crate.folder}/{path}")
        if path.startswith("src/"):
            found.append(function_at(crate, path, text, old, new))
        else:
            beside.append(path)
        texts[path] = text.replace(old, new)
    if not found or not all(it and (it.who, it.only) == (found[0].who, found[0].only) for it in found):
        return None
    return found[0] if all(re.match(found[0].folder, it) for it in beside) else None

def applied(crate, edits):
    """The texts of the files with all of these edits, by their path in the crate; None where one cannot be applied beside the others."""
    texts = {}
    for path, old, new in [it for edit in edits for it in pairs_of(edit)]:
        now = texts.get(path) or text_of(f"{crate.folder}/{path}")
        if now.count(old) != 1:
            return None
        texts[path] = now.replace(old, new)
    return texts

def groups_of(crate, edits):
    """The edits in groups that one check each can try, each with its place: any edits of functions that have copies, and of the others no two of one function, and
    none of one that another of the group names, since its proof is missing there. And those that change no body of one function."""
    places, found = {it: place(crate, it) for it in edits}, []
    cycles = cycles_of(crate)
    others = [it for it in edits if not places[it] or applied(crate, [it]) is None]
    fewest = -(-sum(it is not None and it.has_copies for it in places.values()) // MOST)
    most = -(-len(edits) // max(fewest, 1))
    for edit in sorted((it for it in edits if it not in others), key=lambda it: not places[it].has_copies):
        at = places[edit]
        group = next((it for it in found if (len(it) < most if at.has_copies else fits(crate, it, edit, at, cycles))), None)
        if group is None:
            found.append(group := {})
        group[edit] = at
    return found, others

def cycles_of(crate):
    """The words of each function of the crate that is in a cycle of calls, by its name: their proof is in a check that edits one of them."""
    cycles = {}
    for path in glob.glob("src/**/*.rt", root_dir=crate.folder, recursive=True):
        text = text_of(f"{crate.folder}/{path}")
        for at in filter(lambda it: it and it.in_cycle, (function_of(crate, path, text, head) for head in HEAD.finditer(text))):
            cycles.setdefault(at.name, set()).update(at.words)
    return cycles

def is_apart(at, others, cycles):
    """Whether a function's proof waits for none of these others: it names none, nor does a cycle of calls that it names, or that such a one names in turn."""
    reach, left = {*at.words}, at.words & {*cycles}
    while left:
        reach |= (more := set().union(*(cycles[it] for it in left)) - reach)
        left = more & {*cycles}
    return not any(it.name in reach | UNNAMED for it in others)

def fits(crate, group, edit, at, cycles):
    """Whether one check can try an edit of a function that has no copies beside those of a group, and leaves a function there whose copy can be proved."""
    stay, copied = ([it for it, other in group.items() if other.has_copies is has] for has in (False, True))
    edited = [at, *(group[it] for it in stay)]
    is_left = not copied or any(is_apart(group[it], edited, cycles) for it in copied)
    return is_left and not any(are_tied(at, it) for it in group.values()) and applied(crate, [*stay, edit]) is not None

def are_tied(at, other):
    """Whether one check cannot report of both functions, where the first has no copies: they are one, or one names the other. Those of a cycle of calls have one
    proof, in which what is open of one is open of no other: each is proved from the statements of all."""
    names = at.name in other.words or not other.has_copies and other.name in at.words
    return at.who == other.who or names and not (at.in_cycle and at.cycle == other.cycle)

def goals_at(at, told):
    """The goals that a check leaves open at a function's lines."""
    notes = re.finditer(rf"^note: {re.escape(at.path)}:(\d+):\d+: ((?:it is not proved|`search` found no proof) .*)$", told, re.M)
    return [it[2] for it in notes if int(it[1]) in at.lines]

def errors_at(at, told):
    """The errors in the proof of a function, each without its place: of one in a cycle of calls those of its own goals."""
    found = re.findall(rf"^(?:note: )?(?:\./)?({at.folder}\S*?):\d+:\d+: error: ({f'`{at.name}-' if at.in_cycle else ''}.*)$", told, re.M)
    # (that something is not admitted is reported of that, and not of this proof; nor does the answer that is to be refused)
    errors = [it for path, it in found if "was not admitted" not in it and path.removeprefix("./") != at.made]
    return [it for it in errors if f"`{REFUSED}`" not in it]

def left_at(at, told):
    """The names of the goals that a check leaves open at a function's lines, whose answers it refuses, or that were taken there: first those for which it shows
    values at which they are false, then those that it finds no proof of, and last the answers, some of them only naming what is gone."""
    goals, errors = goals_at(at, told), [it for it in errors_at(at, told) if not it.startswith(tuple(f"`{name}`" for name in at.taken))]
    goals = sorted(goals, key=lambda it: ("allow values at which" not in it) + ("gave up" in it))
    names = [name for it in goals for name in re.findall(r"\(`([^`\s]+)`\)", it)]
    names += [it[1] for error in sorted(errors, key=lambda it: bool(NAMES.search(it))) if (it := re.match(r"`([^`\s]+)`:", error))]
    stale = {name for it in errors_at(at, told) for name in at.taken if it.startswith(f"`{name}`")}
    return [*dict.fromkeys([*names, *(it for it in at.taken if it not in stale)])]

def refused_alone(group, told):
    """The edits of a group whose function the prover refused for itself: it reports an open goal at the function's lines, or an error in its
    proof. That a function which it calls is refused too changes neither, since a function is proved from the contracts of what it calls. With what was
    reported, and whether that shows little: no open goal, and in its proof only names that are gone."""
    refused = {}
    for edit, at in group.items():
        lines, goals, errors = re.findall(at.begins, told, re.M), goals_at(at, told), []
        if len(lines) == 1:
            # (else the name is that of several functions; the functions of a cycle have one proof, in which a goal's name begins with its function's)
            goals += [line for line in lines if "`search` did not prove" in line and not at.in_cycle]
            errors = errors_at(at, told)
        if at.taken:
            # (one goal alone was tried)
            goals, errors = [it for it in goals if f"`{at.asked}`" in it], [it for it in errors if it.startswith(f"`{at.asked}`")]
        little = not goals and all(map(NAMES.search, errors))
        if (goals or errors) and not any(is_whole(it) for it in lines):
            refused[edit] = f"{(goals or errors)[0][:160]}{f' ({LITTLE})' if little else ''}"
    return refused

def is_whole(line):
    """Whether a check's line of a function says that nothing of its own is left to prove."""
    return line == "proved" or line.startswith(("no holes", "depends on a hole in "))

def is_whole_at(at, told):
    """Whether a check reports this function, and that nothing of its own is left to prove but the answer that is to be refused."""
    lines = re.findall(at.begins, told, re.M)
    is_left = re.search(rf"^(?:note: )?{at.folder}\S*?:\d+:\d+: error: `{REFUSED}`", told, re.M)
    return len(lines) == 1 and (is_whole(lines[0]) or is_left and lines[0].startswith("not proved")) and not refused_alone({None: at}, told)

def errors_elsewhere(places, told):
    """The files in which a check reports an error, and that are not of the proofs of these functions."""
    files = re.findall(r"^(?:note: )?((?:\./)?(?:specs|proofs)/\S+?):\d+:\d+: error", told, re.M)
    return sorted({it for it in files if not any(re.match(at.folder, it) for at in places)})

def little_of(refusals):
    """The line that counts apart which of these refusals show little, and names them."""
    names = [re.search(r"must-fail (\S+)\.edit", it)[1] for it in refusals if LITTLE in it]
    return f"{len(names)} of {len(refusals)} refusals show little{f', {LITTLE}: ' if names else ''}{' '.join(names)}"
