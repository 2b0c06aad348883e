"""What the commands at the root share: the program behind one is built where it is not yet, and what is printed is written or missed aloud."""
import os
import re
import shutil
import subprocess
import time

from call import ROOT, say, stop


# ---- The program

def crates(name):
    """the crates of this repository that a crate needs, each behind those that it uses, and itself: the order in which they are proved"""
    needs = {}
    with open(os.path.join(ROOT, "crates.txt"), encoding="utf-8") as file:
        for line in file:
            if ":" in line and not line.startswith("#"):
                crate, uses = line.split(":", 1)
                needs[crate.split()[0]] = uses.split()
    order = []

    def reach(crate):
        if crate in needs and crate not in order:
            for other in needs[crate]:
                reach(other)
            order.append(crate)
    reach(name)
    return order


def program_of(name):
    """where the program of a crate lies once it is built"""
    return os.path.join(ROOT, "crates", name, "out", name)


def files_below(place):
    """the files of a crate, without what is made of them"""
    for folder, folders, found in os.walk(place):
        if folder == place:
            folders[:] = [inner for inner in folders if inner != "out"]
        for file in found:
            yield os.path.join(folder, file)


def newer(name, time):
    """a file that the program is made of and that changed after this time"""
    files = (file for crate in crates(name) for file in files_below(os.path.join(ROOT, "crates", crate)))
    return next((file for file in (os.path.join(ROOT, "crates.txt"), *files) if os.stat(file).st_mtime_ns > time), None)


# What rt says that is no reason why nothing was built.
BESIDE = re.compile(r"rt: (chose |note: |running |nothing has changed|\w+: begins with )")


def build(name):
    """proves and builds the program, unless it is there and nothing that it is made of has changed"""
    program = program_of(name)
    changed = newer(name, os.stat(program).st_mtime_ns) if os.path.exists(program) else program
    if not changed:
        return
    why = "is not built" if changed == program else f"is older than {os.path.relpath(changed, ROOT)}"
    if not shutil.which("rt"):
        stop(f"the program {why}, and the Rattle toolchain, which builds it, is missing: there is no command 'rt' on the PATH")
    needed, crate, since, rest = crates(name), None, time.monotonic(), []
    say(f"the program {why}: its {len(needed)} crates are proved first, some minutes the first time")
    # `rt run` proves and builds it, says so on standard error, and then runs it: on no input here. It leaves the stamp beside a program
    # that is proved as the files now are, and takes the one before away first.
    with subprocess.Popen(["rt", "run"], cwd=os.path.join(ROOT, "crates", name), stdin=subprocess.DEVNULL, stdout=subprocess.DEVNULL,
                          stderr=subprocess.PIPE, text=True, errors="replace") as rt:
        for line in rt.stderr:
            found = re.match(r"crate (\w+): modules ", line)
            if found:
                crate = found[1]
            elif line.startswith("logic=proved ") and crate in needed:
                now = time.monotonic()
                say(f"crate {needed.index(crate) + 1} of {len(needed)} is proved: {crate} ({now - since:.0f} s)")
                crate, since = None, now
            elif line.startswith("logic=not-proved") and crate:
                rest.append(f"{crate} is not proved")
            elif line.startswith("rt: ") and not BESIDE.match(line):
                rest.append(line[4:-1])
    if rt.returncode != 0 or not os.path.exists(program) or not os.path.exists(f"{program}.stamp"):
        for line in rest:
            say(line)
        stop(f"the program is not built: 'rt run' in crates/{name} says why")
    os.utime(program)


def to_run(name):
    """the words that run the program"""
    return [os.path.join(ROOT, "tools", "run-program"), name]


def ended(status):
    """how a program ended, behind `the program ended`"""
    return f"with status {status}" if status >= 0 else f"by signal {-status}"


# ---- Standard output

def heard(what, step, *words):
    """a step of writing; where it fails the call ends, and says what cannot be written"""
    try:
        return step(*words)
    except OSError as error:
        stop(f"{what} cannot be written: {error.strerror}")


def put(what, text):
    """all of the text"""
    rest = text.encode("ascii", "replace")
    while rest:
        rest = rest[heard(what, os.write, 1, rest):]
