#!/usr/bin/env python3
"""proved: what is built on proved crates, without a second proof of what rt ci has just proved.

    tools/proved.py desk                        proves the program, and prints the path of its executable
    tools/proved.py CRATE                       proves what any other crate stands on
    tools/proved.py engine_c ARCHIVE TOOLCHAIN  proves the static library, and has rattle build it with the clang of a folder

rt ci leaves each library that it proved in crates/NAME/out, and the program as LLVM built it. Other commands of rt do
not take these; here they are taken where no file of the crates was touched since, else rt proves what changed. What rt
says goes to standard error.
"""
import functools
import hashlib
import os
import subprocess
import sys

from sources import read_crates

PARTS = ("src", "specs", "proofs")


@functools.lru_cache
def kit():
    """The toolchain's folder."""
    guide = subprocess.run(["rt", "doc"], capture_output=True, text=True, check=True).stdout.strip()
    return os.path.dirname(guide)


def below(crate, crates):
    """The repository's crates that a crate stands on, each after those that it stands on itself: rt's own order."""
    found = []
    for name in crates[crate]:
        if name in crates:
            found += [n for n in [*below(name, crates), name] if n not in found]
    return found


@functools.lru_cache
def text_sum(crate):
    """A sum of the texts of a crate, and of the toolchain."""
    whole = hashlib.sha256(subprocess.run(["rt", "version"], capture_output=True, check=True).stdout)
    for part in PARTS:
        for place, folders, names in os.walk(f"crates/{crate}/{part}"):
            folders.sort()
            for name in sorted(names):
                with open(os.path.join(place, name), "rb") as file:
                    whole.update(repr((place, name, file.read())).encode())
    return whole.hexdigest()


def sum_of(crate, crates):
    """A sum of all that the proof of a crate reads, as the files stood when it was first asked for."""
    every = [text_sum(name) for name in [*below(crate, crates), crate]]
    return hashlib.sha256(repr((every, crates[crate])).encode()).hexdigest()


def rlib(name):
    return f"crates/{name}/out/rlib/{name}.rlib"


def touched(name):
    """When a file of a crate, or a folder with its files, last changed."""
    times = [os.stat(f"crates/{name}").st_mtime]
    for part in PARTS:
        for place, _, names in os.walk(f"crates/{name}/{part}"):
            times += [os.stat(os.path.join(place, n)).st_mtime for n in [".", *names]]
    return max(times[1:], default=times[0])


def with_below(names, crates):
    """These crates and those below them, each after those that it stands on."""
    return list(dict.fromkeys(n for name in names for n in [*below(name, crates), name]))


def left_by_ci(libraries, sources, made=()):
    """Whether rt ci left each of these libraries, and what else it made, and no file of the sources was touched since."""
    if not all(os.path.isdir(rlib(n)) and not os.path.exists(f"crates/{n}/out/rlib/stamp") for n in libraries):
        return False
    built = [*map(rlib, libraries), *made]
    if not all(map(os.path.exists, built)):
        return False
    oldest = min((os.stat(path).st_mtime for path in built), default=0)
    return max([os.stat("crates.txt").st_mtime, *map(touched, sources)]) < oldest


def said(command, **how):
    """Runs a command, what it says on standard error, and ends where it fails; returns the last line."""
    last = ""
    with subprocess.Popen(command, stdout=subprocess.PIPE, stderr=subprocess.STDOUT, text=True, **how) as run:
        for line in run.stdout:
            print(line, end="", file=sys.stderr, flush=True)
            last = line
    if run.returncode:
        sys.exit(run.returncode)
    return last


def root_of(crate):
    """The file that a crate begins with."""
    return "src/main.rt" if os.path.exists(f"crates/{crate}/src/main.rt") else "src/lib.rt"


def is_static(crate):
    """Whether crates.txt has the crate as a static library."""
    with open("crates.txt", encoding="utf8") as file:
        return any(line.split("#")[0].split(":")[0].split() == [crate, "staticlib"] for line in file)


def words(name, needs, crates, jobs=4):
    """rattle's words for a crate over the libraries that it needs, as rt has them."""
    home = kit()
    out = ["--crate-name", name, "--extern", f"std={home}/rlibs/std.rlib", "-L", f"dependency={home}/rlibs"]
    for need in needs:
        path = os.path.abspath(rlib(need)) if need in crates else f"{home}/rlibs/{need}.rlib"
        out += ["--extern", f"{need}={path}"]
    for other in with_below([need for need in needs if need in crates], crates):
        out += ["-L", f"dependency={os.path.dirname(os.path.abspath(rlib(other)))}"]
    out += ["--antt-project", f"{home}/rattle/logic/antt-project.json", "--logic-built", f"{home}/logic_built"]
    out += ["--jobs", str(min(jobs, os.cpu_count() or 1)), "--links", f"{name}="]
    return out + (["--crate-type", "staticlib"] if is_static(name) else [])


def build(names, crates):
    """Has these libraries proved and built, with those below them."""
    every = with_below(names, crates)
    if not left_by_ci(every, every):
        for name in names:
            said(["rt", "lib"], cwd=f"crates/{name}")


def libraries_of(crate, crates):
    """Has the libraries below a crate proved and built, and the crate itself proved."""
    libraries = below(crate, crates)
    if not left_by_ci(libraries, [*libraries, crate]):
        said(["rt", "check"], cwd=f"crates/{crate}")


def archive(crate, file, toolchain, crates):
    libraries_of(crate, crates)
    command = [f"{kit()}/bin/rattle", "build", root_of(crate), *words(crate, crates[crate], crates)]
    command += ["--toolchain", os.path.abspath(toolchain), "--backend", "llvm"]
    verdict = said([*command, "-o", os.path.abspath(file)], cwd=f"crates/{crate}")
    if not verdict.startswith("logic=proved "):
        sys.exit(f"proved: rattle does not say that {crate} is proved: {verdict}")
    print(verdict, end="")


def program(crate, crates):
    if root_of(crate) != "src/main.rt":
        return libraries_of(crate, crates)
    made, libraries = f"crates/{crate}/out/{crate}", below(crate, crates)
    if not left_by_ci(libraries, [*libraries, crate], [made]):
        with open(f"crates/{crate}/stdin", "rb") as stdin:
            run = subprocess.run(["rt", "run"], cwd=f"crates/{crate}", stdin=stdin, stdout=subprocess.PIPE, check=False)
        with open(f"crates/{crate}/stdout", "rb") as wanted:
            if run.returncode or run.stdout != wanted.read():
                sys.exit(f"proved: {crate} is not proved, or did not write what crates/{crate}/stdout has")
    return print(os.path.abspath(made))


def main():
    os.chdir(os.path.join(os.path.dirname(os.path.abspath(__file__)), ".."))
    crates, _ = read_crates()
    given = sys.argv[1:]
    if not given or given[0] not in crates or len(given) not in (1, 3):
        return __doc__
    return archive(*given, crates) if len(given) == 3 else program(*given, crates)


if __name__ == "__main__":
    sys.exit(main())
