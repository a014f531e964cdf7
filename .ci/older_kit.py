"""What `check` needs of the toolchain's `rt`, for a kit whose `rt ci` keeps nothing and tries a crate's edits in turn: a store beside the kit, by the sum of
all that a result rests on; what an edit came to, by kind; and the edits as tasks of their own.
"""
import argparse, functools, hashlib, json, os, shutil, tempfile

REFUSED, AT_LIMIT, NOT_REFUSED, BAD, UNSURE = "refused", "at a limit", "not refused", "bad", "unsure"
SETTLED = (REFUSED,)
now = argparse.Namespace(kept=None, crates=[], anew=False, aside=None)

def digest(*parts):
    return hashlib.sha256(repr(parts).encode()).hexdigest()

def sum_of(file):
    with open(file, "rb") as it:
        return hashlib.sha256(it.read()).hexdigest()

def files_below(folder):
    return sorted(f"{at}/{name}" for at, _, names in os.walk(folder) for name in names)

def written(place, fill):
    """Makes an entry of the store whole or not at all."""
    part = tempfile.mkdtemp(prefix="part-", dir=os.path.dirname(place))
    fill(part)
    shutil.rmtree(place, ignore_errors=True)
    os.rename(part, place)

def store_for(rt, lib):
    folder = f"{os.path.dirname(lib.KIT)}/rattle-kept"
    kit = digest([(it, sum_of(f"{lib.KIT}/{it}")) for it in ("KIT-ID", *(f"bin/{it}" for it in sorted(os.listdir(f"{lib.KIT}/bin"))))])

    class Kept:
        """What was proved and refused, each under the sum of all that it rests on."""
        def __init__(self, crates):
            os.makedirs(f"{folder}/edits", exist_ok=True)
            self.keys, self.texts = {}, {it.folder: self.text_of(it) for it in crates}

        def text_of(self, crate):
            """The sum of a crate's own: its line, and its files."""
            ran_on = [f"{crate.folder}/{it}" for it in ("stdin", "stdout", "args", "status") if os.path.isfile(f"{crate.folder}/{it}")]
            own = [*lib.files_of(crate.folder), *ran_on, *files_below(f"{crate.folder}/data")]
            return digest(crate.said, [(it.replace(crate.folder, ""), sum_of(it)) for it in own])

        def key(self, crate):
            if crate.folder not in self.keys:
                self.keys[crate.folder] = digest(kit, crate.allowed, self.texts.get(crate.folder) or self.text_of(crate), [self.key(it) for it in crate.deps])
            return self.keys[crate.folder]

        def is_untouched(self, crate):
            return self.texts[crate.folder] == self.text_of(crate)
        def is_built(self, crate):
            pass
        def place(self, crate, tests, key):
            return f"{folder}/{'tests' if tests else 'proof'}-{crate.name}-{key}"

        def made(self, crate, tests):
            """The files that a proof makes, by their names in out/."""
            out = f"{crate.folder}/out"
            names = [f"{crate.name}_tests"] if tests else [crate.name, f"{crate.name}.by-rattle"]
            files = files_below(f"{out}/rlib") if crate.makes_rlib() and not tests else [f"{out}/{it}" for it in names if os.path.isfile(f"{out}/{it}")]
            return [it.removeprefix(f"{out}/") for it in files if it not in (f"{out}/rlib/stamp", f"{out}/rlib/from-store")]

        def give(self, crate, tests, key):
            entry = self.place(crate, tests, key)
            if not os.path.isfile(f"{entry}/made.json"):
                return False
            with open(f"{entry}/made.json", encoding="utf-8") as it:
                made = json.load(it)
            for number, name in enumerate(made):
                os.makedirs(os.path.dirname(f"{crate.folder}/out/{name}"), exist_ok=True)
                shutil.copy2(f"{entry}/{number}", f"{crate.folder}/out/{name}")
            return True

        def keep(self, crate, tests, key):
            def fill(part):
                made = self.made(crate, tests)
                for number, name in enumerate(made):
                    shutil.copy2(f"{crate.folder}/out/{name}", f"{part}/{number}")
                with open(f"{part}/made.json", "w", encoding="utf-8") as it:
                    json.dump(made, it)
            written(self.place(crate, tests, key), fill)

        def of_edit(self, edit, key):
            return f"{folder}/edits/{digest(key, sum_of(edit))}"
        def tried(self, name):
            if now.anew or not os.path.isfile(f"{name}/told.json"):
                return None
            with open(f"{name}/told.json", encoding="utf-8") as it:
                return tuple(json.load(it))
        def keep_tried(self, name, kind, text):
            def fill(part):
                with open(f"{part}/told.json", "w", encoding="utf-8") as it:
                    json.dump([kind, text], it)
            written(name, fill)
    return Kept

def extend(rt, lib):
    """Adds to a kit's `rt` what it lacks."""
    its = argparse.Namespace(ci=rt.ci, crate_ci=rt.Crate.ci, crates=rt.crates_of, lanes=rt.in_lanes, must_fail=rt.must_fail)
    rt.REFUSED, rt.AT_LIMIT, rt.BAD, rt.UNSURE, rt.SETTLED, rt.SEEDS = REFUSED, AT_LIMIT, BAD, UNSURE, SETTLED, []
    rt.Kept, rt.linked = store_for(rt, lib), shutil.copytree

    def must_fail(crate, edit, flags, kept=None):
        is_refused, text = its.must_fail(crate, edit, flags, kept)
        return REFUSED if is_refused else BAD if "BAD EDIT" in text else NOT_REFUSED, text

    def crate_ci(crate, flags, tests):
        """Proves a crate or its tests, as `rt ci` does, or takes what is kept."""
        key = now.kept.key(crate)
        if not now.anew and now.kept.give(crate, tests, key):
            print(f"rt: {crate.name}{': its tests are' if tests else ''} kept", file=crate.out)
            return 0
        status = its.crate_ci(crate, flags, tests)
        if not status and now.kept.is_untouched(crate):
            now.kept.keep(crate, tests, key)
        return status

    def crates_of(root, aside=None):
        return its.crates(root, aside or now.aside)

    def in_lanes(tasks):
        """Runs the tasks of `rt ci`, with those that `check` makes of edits in place of one that tries a crate's in turn."""
        given, new, told = {}, {}, {}
        is_well = lambda crate: lambda given, _: given[crate.name, "proof"] and given[crate.name, "tests"]
        for (name, kind), task in tasks.items():
            if kind != "edits":
                new[name, kind] = task
                continue
            crate = next(it for it in now.crates if it.name == name)
            due, bad = rt.edits_of(crate)
            both = [(name, "proof"), (name, "tests")]
            told[crate] = bad, due, rt.add_edits(new, crate, due, [(it.name, "proof") for it in crate.below()], both, is_well(crate), now.kept)[0] if due else None
        given = its.lanes(new)
        for crate, (bad, due, tell) in told.items():
            found = tell(given) if due and is_well(crate)(given, 0) else []
            given[crate.name, "edits"] = bad, due, [(kind in (REFUSED, AT_LIMIT), text) for kind, text in found]
        return given

    def ci(anew, names):
        now.anew, its.edits, its.asked = anew, functools.lru_cache(maxsize=None)(rt.edits_of), rt.crates_of
        rt.edits_of = its.edits
        def asked(root, aside):
            now.aside = aside
            now.crates = its.asked(root)
            now.kept = rt.Kept(now.crates)
            return now.crates
        rt.crates_of = asked
        try:
            return its.ci()
        finally:
            for it in rt.SEEDS:
                shutil.rmtree(it, ignore_errors=True)
    # (a crate's stamp needs that of every crate below it, along every way down, and there are very many ways)
    stamps, stamp = {}, rt.Crate.stamp
    rt.Crate.stamp = lambda crate: stamps.get(crate.folder) or stamps.setdefault(crate.folder, stamp(crate))
    rt.must_fail, rt.Crate.ci, rt.crates_of, rt.in_lanes, rt.ci = must_fail, crate_ci, crates_of, in_lanes, ci
    rt.where_disk_lasts = lambda call, *given: call(*given)
