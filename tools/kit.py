"""kit.py: what the tools of this folder share: the names of the library, the kit's programs, and how a tool fails.

The kit is found by `rt doc`. Its clang is LLVM's many tools in one file, each called by a name of its own (llvm-nm, lld-link, ..): so
all that the library's build needs is the kit, python3 and bash. Nothing here makes a link below the repository: `rt ci` refuses one.
"""
import fcntl
import os
import shutil
import subprocess
import sys
from pathlib import Path

# ---- the library: what to change for another one
NAME = "hullsift"                   # libNAME.a, NAME.obj, NAME.dll
PREFIX = "hullsift_"                # of every exported function
ROOT = Path(__file__).resolve().parent.parent
CRATES = sorted({path.relative_to(ROOT / "crates").parts[0] for path in ROOT.glob("crates/c_*/src/**/*.rt") if 'extern "C" fn ' in path.read_text()})   # those that export
HEADERS = [ROOT / "include/hullsift.h"]
OUT = ROOT / "target/library"       # linux/, windows/, kernel/
WORK = OUT / "parts"                # what is made on the way

ME = Path(sys.argv[0]).name


def fail(*words):
    sys.exit(f"{ME}: " + " ".join(str(word) for word in words))


def say(*words):
    print(f"{ME}:", *words, flush=True)


def run(*words, **more):
    """Runs a program, and gives what it wrote. A failure ends the tool with the program's own words."""
    words = [str(word) for word in words]
    done = subprocess.run(words, text=True, capture_output=True, **more)
    if done.returncode:
        sys.stderr.write(done.stdout[-4000:] + done.stderr[-4000:])
        fail(f"`{' '.join(words)[:300]}` ended with status {done.returncode}")
    return done.stdout


def _home():
    if not shutil.which("rt"):
        fail("rt, the command of the Rattle kit, is not on the path")
    return Path(run("rt", "doc").strip()).parent


HOME = _home()
TOOLCHAIN = HOME / "toolchain"
LIB = TOOLCHAIN / "lib"             # the loader and the C library for x86-64 Linux
CLANG = TOOLCHAIN / "bin/clang"


def tool(name):
    """A tool of LLVM: a script that calls the kit's clang by that name."""
    script, text = WORK / "bin" / name, f"#!/usr/bin/env bash\nexec -a {name} '{CLANG}' \"$@\"\n"
    if not script.exists() or script.read_text() != text:
        script.parent.mkdir(parents=True, exist_ok=True)
        part = script.with_name(f"{name}.{os.getpid()}")
        part.write_text(text)
        part.chmod(0o755)
        part.rename(script)
    return script


def alone(name):
    """Waits until no other process is here by that name, and keeps others waiting until this one ends."""
    global _held
    WORK.mkdir(parents=True, exist_ok=True)
    _held = open(WORK / f"{name}.lock", "w")
    fcntl.flock(_held, fcntl.LOCK_EX)


def on_linux(program, *words):
    """The words that run a program for x86-64 Linux by the kit's loader and C library."""
    return [str(LIB / "ld-linux-x86-64.so.2"), "--library-path", str(LIB), str(program), *map(str, words)]


def install(package, why):
    """A package of Debian that the kit does not have the like of."""
    say(f"installs {package} by apt-get, {why}")
    quiet = dict(stdout=subprocess.DEVNULL, stderr=subprocess.PIPE, text=True, env={**os.environ, "DEBIAN_FRONTEND": "noninteractive"})
    words = ["apt-get", "install", "-y", "-q", package]
    if not shutil.which("apt-get"):
        fail(f"{package} is missing, and there is no apt-get to install it by")
    if subprocess.run(words, **quiet).returncode:
        subprocess.run(["apt-get", "update", "-q"], **quiet)
        done = subprocess.run(words, **quiet)
        if done.returncode:
            fail(f"{package} could not be installed: {done.stderr.strip()[-300:]}")
