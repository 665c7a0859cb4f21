#!/usr/bin/env python3
"""time.py PROGRAM [--quick] [NAME ..]: what the program takes for each bundle, as a table on standard output.

A line is the bundle and the command, processor seconds (user and system, the least of several runs), millions of instructions (`valgrind
--tool=cachegrind --cache-sim=no`, one run, which counts what callgrind counts, within a thousandth; not with --quick), the most memory in MB, and how
the run ended. With names only the lines whose bundle has one of these. Journals are made in a folder of their own in /dev/shm. All runs are timed
before instructions are counted. What is found is kept in the folder `kept` by the contents of program and bundle, and not asked again; remove a file
there to ask again. The precedence of the runs that are timed is NICE (-5 where it isn't set), that of those that count COUNT_NICE (5).
"""
import hashlib
import json
import os
import re
import shutil
import subprocess
import sys
import tempfile

HERE = os.path.dirname(os.path.abspath(__file__))
LINES = """
writes eval
writes-half eval
writes check
loop eval
walks eval
list-1024 replay
list-512 replay
list-256 replay
list-1024 view s1
list-512 view s1
list-256 view s1
list-1024 run
turns replay
turns view s1
nested replay
nested view s1
deep replay
deep view s1
cached run
cached replay
cached view s1
made-100096 replay
made-50176 replay
made-one-worker replay
made-100096 view s1
prepared-10000 replay
prepared-5000 replay
prepared-large replay
prepared-10000 view
stopped replay
released-forth replay
released-back replay
gen-7-1000 run
gen-7-1000-cache-64 run
transfers-56000 replay
transfers-56000 view s2
transfers-99960 replay
transfers-99960 view s2
recoveries replay
posts replay
""".split("\n")
TURNS = {"made-100096": 3, "recoveries": 3}


def precede(nice):
    """For what is started next."""
    try:
        os.setpriority(os.PRIO_PROCESS, 0, nice)
    except OSError as error:
        print(f"no precedence: {error}", file=sys.stderr)


def run(program, bundle, words, folder):
    """Seconds, MB and the status of one run."""
    precede(int(os.environ.get("NICE", "-5")))
    kept = os.path.join(folder, "memory")
    for name in ["journals", "memory"]:
        path = os.path.join(folder, name)
        shutil.rmtree(path, ignore_errors=True) if os.path.isdir(path) else os.path.exists(path) and os.remove(path)
    with open(bundle, "rb") as given, open(os.path.join(folder, "out"), "wb") as out:
        child = subprocess.Popen(["/usr/bin/time", "-q", "-f", "%M", "-o", kept, program, *words], stdin=given, stdout=out, stderr=subprocess.DEVNULL, cwd=folder)
        _, status, used = os.wait4(child.pid, 0)
        child.returncode = os.waitstatus_to_exitcode(status)
    return used.ru_utime + used.ru_stime, int(open(kept).read().split()[-1]) / 1024, child.returncode


def instructions(program, bundle, words, folder):
    """Millions of them in one run."""
    precede(int(os.environ.get("COUNT_NICE", "5")))
    shutil.rmtree(os.path.join(folder, "journals"), ignore_errors=True)
    tool = ["valgrind", "--tool=cachegrind", "--cache-sim=no", f"--cachegrind-out-file={folder}/counted"]
    with open(bundle, "rb") as given, open(os.path.join(folder, "out"), "wb") as out:
        said = subprocess.run([*tool, program, *words], stdin=given, stdout=out, stderr=subprocess.PIPE, cwd=folder).stderr.decode()
    found = re.search(r"I +refs: +([\d,]+)", said)
    return int(found[1].replace(",", "")) / 1e6 if found else None


def sum_of(*files):
    whole = hashlib.sha256()
    for file in files:
        whole.update(open(file, "rb").read())
    return whole.hexdigest()[:16]


class Kept:
    """What was found of a program, in a file by its contents."""

    def __init__(self, program):
        self.folder = os.path.join(HERE, "kept")
        os.makedirs(self.folder, exist_ok=True)
        self.file = os.path.join(self.folder, sum_of(program) + ".json")
        self.rows = json.load(open(self.file)) if os.path.exists(self.file) else {}

    def ask(self, key, find):
        if key not in self.rows:
            self.rows[key] = find()
            with open(self.file + ".new", "w") as file:
                json.dump(self.rows, file, indent=1)
            os.replace(self.file + ".new", self.file)
        return self.rows[key]


def timed(program, bundle, words, folder, name):
    runs = [run(program, bundle, words, folder)]
    turns = TURNS.get(name, 5 if runs[0][0] > 0.5 else 9)
    runs += [run(program, bundle, words, folder) for _ in range(turns - 1)]
    return [min(x[0] for x in runs), min(x[1] for x in runs), ",".join(sorted({str(x[2]) for x in runs}))]


def main():
    quick = "--quick" in sys.argv
    program, *names = [x for x in sys.argv[1:] if x != "--quick"]
    program = os.path.abspath(program)
    kept = Kept(program)
    lines = [(name, words) for name, *words in map(str.split, filter(None, LINES)) if not names or name in names]
    folder = tempfile.mkdtemp(prefix="fab-time-", dir="/dev/shm")
    found = {}
    try:
        for counts in [False] if quick else [False, True]:
            for name, words in lines:
                bundle = os.path.join(HERE, "bundles", name + ".fab")
                key = " ".join([name, *words, sum_of(bundle)])
                if counts:
                    millions = kept.ask("millions " + key, lambda: instructions(program, bundle, words, folder))
                    found[name, *words].append("none" if millions is None else f"{millions:.1f}")
                else:
                    found[name, *words] = list(kept.ask("time " + key, lambda: timed(program, bundle, words, folder, name)))
                print(name, *words, *found[name, *words], file=sys.stderr, flush=True)
    finally:
        shutil.rmtree(folder, ignore_errors=True)
    print(f"{'bundle':<22}{'command':<10}{'seconds':>9}{'millions':>11}{'MB':>7}  status")
    for (name, *words), (seconds, memory, status, *millions) in found.items():
        print(f"{name:<22}{' '.join(words):<10}{seconds:>9.3f}{(millions or ['-'])[0]:>11}{memory:>7.1f}  {status}")


if __name__ == "__main__":
    main()
