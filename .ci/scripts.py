"""The scripts that need no prover: the streams, the examples, and what else `SCRIPTS` names. All try a program but
`docs/makers/draw`, which looks at crates.txt and its page, and `docs/words` and its test, which count old words. A script has `run(program)`, which
returns how many tests passed, how many failed, and a line for each of these.

usage: .ci/scripts.py SCRIPT PROGRAM   runs one, and prints that as JSON
"""
import json, os, runpy, subprocess, sys
from concurrent.futures import ThreadPoolExecutor

# The longest first: that of folders waits for the disk.
TESTS = """folders refused_memory like_sqlite run limits gateway soak shell driver one_line first_hour pages cut_streams setup copies schemas launcher random_files exchanged random_selects join_orders
    install hostile_names same_words replaced mistakes tried connections random_objects random_writes leaving random_cursors words"""
SCRIPTS = [*(f"tests/{it}" for it in TESTS.split()), "examples/run", "docs/makers/draw", "docs/words"]
LONG = ["tests/gateway_long", "tests/clients"]  # that ./check alone runs: they take longer than all others together, or need what may not be installed
SECONDS = 3600  # after which a script has failed

def ended(script, program):
    """How a script ends over the program, in a process of its own: passed, failed, and what is to be read of it. One that breaks off or tries nothing has
    failed."""
    words = [sys.executable, "-B", os.path.realpath(__file__), script, program]
    # (`python3` is the one that runs this, there too where the `python3` on the PATH is a script that looks for one)
    env = {**os.environ, "PATH": f"{os.path.dirname(sys.executable)}:{os.environ['PATH']}"}
    try:
        ran = subprocess.run(words, stdin=subprocess.DEVNULL, stdout=subprocess.PIPE, stderr=subprocess.STDOUT, errors="replace", timeout=SECONDS, env=env)
        passed, failed, lines = json.loads(ran.stdout.rstrip().rpartition("\n")[2])
        if ran.returncode or passed + failed == 0:
            raise ValueError(ran.returncode)
    except subprocess.TimeoutExpired:
        passed, failed, lines = 0, 1, [f"it had not ended after {SECONDS} seconds"]
    except (ValueError, TypeError):
        passed, failed, lines = 0, 1, [f"it ended with status {ran.returncode} and no count of tests: {ran.stdout[-2000:]}"]
    # (on the line of the count: what was not tried is not to be taken as passed)
    left_out = [it for it in lines if it.startswith("not installed: ")]
    return passed, failed, "\n".join(["; ".join([f"{script}: {passed} passed, {failed} failed", *left_out]), *(it for it in lines if it not in left_out)])

def over(program, scripts=(*LONG, *SCRIPTS)):
    """Runs all scripts over a program, as many at a time as there are processors and two more, since the first waits for the disk and others for a while, and
    returns of each, in their order, what `ended` does."""
    with ThreadPoolExecutor(len(os.sched_getaffinity(0)) + 2) as pool:
        yield from pool.map(lambda it: ended(it, os.path.abspath(program)), scripts)

def sources_of_dist():
    """The sum of the sources that the program in dist/ was made of, the kit that made it, and the sum of those that are here."""
    with open("dist/sources", encoding="utf-8") as it:
        sources, kit = it.read().split("\n", 1)
    return sources, kit, subprocess.check_output("dist/digest", text=True).strip()

def told(found, counts=(0, 0)):
    """Prints how each ended, as it ends, and adds up the counts."""
    for passed, failed, text in found:
        counts = counts[0] + passed, counts[1] + failed
        print(text, flush=True)
    return counts

def quick(program="dist/fedq"):
    """Runs all that needs no prover but `LONG` over the program in dist/, where that is of the sources here."""
    sources, _, here = sources_of_dist()
    first = (1, 0, f"{program} is of these sources") if sources == here else (0, 1, f"{program} is of other sources: dist/rebuild makes it anew")
    passed, failed = told(over(program, SCRIPTS), told([first]))
    print(f"nothing was proved\n{passed} passed, {failed} failed", flush=True)
    return 1 if failed else 0

if __name__ == "__main__":
    if len(sys.argv) != 3:
        sys.exit(__doc__)
    sys.path[:0] = [os.path.dirname(os.path.abspath(sys.argv[1]))]
    print("\n" + json.dumps([*runpy.run_path(sys.argv[1])["run"](sys.argv[2])]))
