"""Which program a check runs."""
import importlib.util
import os
import shutil
import subprocess
import sys

ROOT = os.path.dirname(os.path.dirname(os.path.realpath(__file__)))


def tool(name, default):
    """The command that a variable of the environment names, or else the default."""
    return os.environ.get(name) or default


def chosen_program(about, wanted=(), modules=()):
    """The program that SWD names; else the proved one, which is proved and built first where it isn't there. With
    --unproved among the check's words, which is taken from them, it is one that is compiled without a proof in about a
    minute. With --help prints `about`, what the check says of itself, and ends it. Of the commands in `wanted` and of
    Python's `modules` it names the first that isn't there, and ends the check before anything is built: status 2."""
    if {"--help", "-h"} & set(sys.argv[1:]):
        print(f"{about.strip()}\n\n--unproved takes a program without a proof, which is compiled in about a minute.")
        sys.exit()
    missing = [it for it in wanted if shutil.which(it) is None]
    missing += [f"the module {it} of {sys.executable}" for it in modules if importlib.util.find_spec(it) is None]
    if missing:
        print(f"checks/{os.path.basename(sys.argv[0])}: {missing[0]} isn't installed", file=sys.stderr)
        sys.exit(2)
    is_any = "--unproved" in sys.argv[1:]
    if is_any:
        sys.argv.remove("--unproved")
    if os.environ.get("SWD"):
        return os.environ["SWD"]
    call = [f"{ROOT}/checks/program", *["--unproved"] * is_any]
    return subprocess.check_output(call, text=True).strip()
