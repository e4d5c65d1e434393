# What the tools share: they work from the repository's top, name a crate that is not there, and call the kit's rattle as rt does.
import os
import pathlib
import subprocess
import sys

ROOT = pathlib.Path(__file__).resolve().parent.parent


def fail(message):
    """Says what a tool cannot do, and ends with 2."""
    print(f"tools/{pathlib.Path(sys.argv[0]).name}: {message}", file=sys.stderr)
    sys.exit(2)


def crates(names):
    """The names given, all of crates that are there."""
    for name in names:
        if not pathlib.Path("crates", name, "src").is_dir():
            fail(f"no crate {name} in crates/")
    return names


def uses():
    """Of each crate of crates.txt what it stands on, libraries of the kit among it."""
    rows = [row.partition("#")[0].partition(":") for row in pathlib.Path("crates.txt").read_text().split("\n")]
    return {name.split()[0]: names.split() for name, colon, names in rows if colon}


def below(crate, used, found):
    """All crates below one, each before those that stand on it."""
    for name in used[crate]:
        if name in used and name not in found:
            below(name, used, found)
            found.append(name)
    return found


def build_below(crate):
    """Has the crates below built, where `rt ci` did not do it in a clean clone: those that it built bear no stamp."""
    folders = [pathlib.Path("crates", name, "out/rlib") for name in below(crate, uses(), [])]
    if all(f.is_dir() and not (f / "stamp").exists() for f in folders):
        return
    run = subprocess.run(["rt", "check"], cwd=f"crates/{crate}", capture_output=True, text=True)
    if run.returncode:
        fail(f"{crate} is not proved:\n{(run.stdout + run.stderr)[-600:]}")


def check_words(crate):
    """What the kit's rattle is called with to check a crate, in its folder or a copy; the crates below are taken as `rt` built them."""
    kit = pathlib.Path(subprocess.run(["rt", "doc"], check=True, capture_output=True, text=True).stdout.strip()).parent
    used, words = uses(), [f"{kit}/bin/rattle", "check", "--crate-name", crate]
    words.append("src/main.rt" if pathlib.Path("crates", crate, "src/main.rt").exists() else "src/lib.rt")
    for name in ["std", *(n for n in used[crate] if n not in used)]:
        words += ["--extern", f"{name}={kit}/rlibs/{name}.rlib"]
    words += ["-L", f"dependency={kit}/rlibs"]
    for name in below(crate, used, []):
        folder = ROOT / "crates" / name / "out/rlib"
        words += ["--extern", f"{name}={folder}/{name}.rlib"] if name in used[crate] else []
        words += ["-L", f"dependency={folder}"]
    return [*words, "--antt-project", f"{kit}/rattle/logic/antt-project.json", "--logic-built", f"{kit}/logic_built"]


os.chdir(ROOT)
