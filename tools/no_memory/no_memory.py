"""Refuses each request for memory of the programs in turn, and checks that nothing is lost.

`lru_bench refused` runs scripts of calls, makes each call that was refused for lack of memory once
more, and prints every answer. Each script is run here with its first request refused, then with its
second, and so on, until a run makes no further request. Other programs are run in the same way; of
the requests of long runs, some are refused. A run passes if it prints what it prints with ample
memory, or if it ends with status 1 and its message for lack of memory, after printing a beginning
of that. Anything else fails: another text, a fault, a run that does not end.

The file `expected` keeps the table of which calls were refused, by script and number of the
request. A call that makes a request more or fewer changes the table, which is a failure; where the
new table is right, `--write` keeps it.

The programs are those that the gate proves. The library `deny.c`, loaded before the C library,
refuses the one request.
"""
import argparse
import collections
import concurrent.futures
import dataclasses
import difflib
import itertools
import os
import pathlib
import re
import subprocess
import sys
import tempfile

SECONDS = 60
HERE = pathlib.Path(__file__).resolve().parent
EXPECTED = HERE / "expected"
# which of two threads makes a request, and in which call, is up to the schedule
UNTOLD = ["unsharded-two-threads"]
# what a program writes if a request of its own is refused, unless it writes `refused 1`
OWN = {
    "examples": r"(line \d+: )?refused 1\n"
    r"|examples: cannot read .*: (no memory|there is no memory for the block)\n"
    r"|examples: cannot write standard output: out of memory\n",
    "lru_size": r"lru_size: out of memory\n",
}
# what deny.c writes when it refuses a request
MARK = b"this request is refused\n"


@dataclasses.dataclass
class Tries:
    """What came of the runs of one program: the calls that were made again, by the request that was
    refused; how many runs said so and ended; how many went on as if nothing was refused, as where a
    text does not shrink; and what failed."""

    name: str
    calls: list = dataclasses.field(default_factory=list)
    own: int = 0
    unmet: int = 0
    failed: list = dataclasses.field(default_factory=list)


def built(name):
    """The path of a program, as tools/built finds or makes it."""
    ran = subprocess.run(["tools/built", name], stdout=subprocess.PIPE, text=True)
    if ran.returncode:
        sys.exit(ran.returncode)
    return ran.stdout.strip()


def library(folder):
    """The library that refuses a request, made by the kit's compiler."""
    page = subprocess.run(["rt", "doc"], capture_output=True, text=True, check=True).stdout.strip()
    made = f"{folder}/deny.so"
    linked = ["-shared", "-fPIC", "-O1", "-nostdlib", "-fuse-ld=lld", "-o", made, HERE / "deny.c"]
    subprocess.run([pathlib.Path(page).parent / "toolchain/bin/clang", *linked], check=True)
    return made


def run(program, words, path, refuse="", number=0):
    """How the program ended on an input, with this request refused, if any: its status, and what it
    wrote on its two streams."""
    env = {"LD_PRELOAD": refuse, "REFUSED_REQUEST": str(number)} if number else {}
    command = [program, *words]
    try:
        with open(path, "rb") as given:
            ran = subprocess.run(
                command, env=env, capture_output=True, stdin=given, timeout=SECONDS
            )
    except subprocess.TimeoutExpired as late:
        return "no end", late.stdout or b"", MARK
    return ran.returncode, ran.stdout, ran.stderr


def try_each(refuse, program, words, numbers=None, path=os.devnull):
    """Refuses each request of the program in turn, or those with these numbers, until a run makes
    no such request."""
    name = pathlib.Path(program).name
    tries = Tries(" ".join([name, *words]))
    status, ample, usual = run(program, words, path)
    if status or not ample:
        tries.failed.append(f"with ample memory: status {status}, {usual!r}")
        return tries
    for number in numbers or itertools.count(1):
        status, out, said = run(program, words, path, refuse, number)
        if MARK not in said:
            break
        said = said.replace(MARK, b"").decode()
        again = re.findall(r"^memory (.*)$", said, re.MULTILINE)
        own = re.fullmatch(OWN.get(name, "refused 1\n"), said)
        if status == 0 and out == ample and len(again) == 1:
            tries.calls.append((number, again[0]))
        elif status == 0 and out == ample and said == usual.decode():
            tries.unmet += 1
        elif status == 1 and ample.startswith(out) and own:
            tries.own += 1
        else:
            tries.failed.append(f"request {number}: status {status}, {said!r}, {out.decode()!r}")
    if not (tries.calls or tries.own or tries.unmet or tries.failed):
        tries.failed.append("no request was refused")
    return tries


def ranges(numbers):
    """The numbers, which rise, as text: those that follow one another as the first and the last."""
    groups = itertools.groupby(enumerate(numbers), lambda it: it[1] - it[0])
    runs = [[number for _, number in group] for _, group in groups]
    return ", ".join(str(it[0]) if len(it) == 1 else f"{it[0]}-{it[-1]}" for it in runs)


def table_of(every):
    """A line for each script, with the calls that were refused and the numbers of the requests."""
    lines = []
    for tries in every:
        by_call = collections.defaultdict(list)
        for number, call in tries.calls:
            by_call[call.split("(")[0].strip('"')].append(number)
        script = tries.name.split()[-1]
        if by_call and script not in UNTOLD:
            calls = "; ".join(f"{it} {ranges(by_call[it])}" for it in sorted(by_call))
            lines.append(f"{script}: {calls}\n")
    return sorted(lines)


def runs_of(folder):
    """The runs: a program, its words, and perhaps which requests are refused, and its input."""
    bench, rows, size, examples = map(built, ("lru_bench", "lru_rows", "lru_size", "examples"))
    sizing = pathlib.Path("crates/lru_size/args").read_text(encoding="utf-8").split()
    printed = pathlib.Path(folder) / "printed"
    printed.write_bytes(bytes(range(1, 251)) * 5)
    # the workloads make up to about 400,000 requests: the first ones are refused, and then a few,
    # farther and farther apart
    some = [*range(1, 21), *(100 * 2**power for power in range(13))]
    answers = run(bench, ["refused"], os.devnull)[1].decode()
    scripts = re.findall(r"^script (.*)$", answers, re.MULTILINE)
    return [
        (rows, ["stress", "1"], some),
        (rows, ["rows"]),
        (bench, ["check"], some),
        (bench, ["soak", "1", "0"]),
        (size, sizing, None, "crates/lru_size/stdin"),
        (examples, ["cat", str(printed), "2"]),
        (examples, ["replay"], some, "crates/examples/stdin"),
        *((bench, ["refused", it]) for it in scripts),
    ]


def main():
    words = argparse.ArgumentParser(description="Refuses each request for memory in turn.")
    words.add_argument("--jobs", type=int, default=os.cpu_count(), help="how many runs at once")
    words.add_argument("--write", action="store_true", help="keep the table of refused calls")
    asked = words.parse_args()
    os.chdir(HERE.parent.parent)
    with (
        tempfile.TemporaryDirectory() as folder,
        concurrent.futures.ThreadPoolExecutor(asked.jobs) as pool,
    ):
        refuse, runs = library(folder), runs_of(folder)
        every = list(pool.map(lambda it: try_each(refuse, *it), runs))
    for tries in every:
        for it in tries.failed:
            print(f"{tries.name}: {it}")
    table = table_of(every)
    if asked.write:
        EXPECTED.write_text("".join(table), encoding="utf-8")
    kept = EXPECTED.read_text(encoding="utf-8").splitlines(keepends=True)
    changed = "".join(difflib.unified_diff(kept, table, EXPECTED.name, "found", n=0))
    if changed:
        print(f"other calls were refused (if that is right, --write keeps them):\n{changed}")
    calls, failed = (sum(len(getattr(it, part)) for it in every) for part in ("calls", "failed"))
    own, unmet = (sum(getattr(it, part) for it in every) for part in ("own", "unmet"))
    print(
        f"no memory: {len(every)} programs and scripts, {calls} calls answered Memory and were "
        f"made again, {own} runs said so and ended with status 1, {unmet} went on without; "
        f"{failed} failed"
    )
    return 1 if failed or changed or not calls else 0


sys.exit(main())
