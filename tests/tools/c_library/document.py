"""Runs the programs of a document, and compares what each prints with what the document shows.

document.py DOCUMENT PREFIX BUILD..: each block ```c, ```python or ```rust is a program, and the block ```text after it is the command
that runs it, after `$ `, and what that prints. The first word of the command that ends in .py, or else its first word, is the file of the
program. The command runs in the current directory, which has the files that it names. The library is installed under PREFIX, with the
module for Python. A program in C is compiled by what pkg-config prints. One in Rattle is proved and built by the command BUILD with its
file and its name. One in Rust is over the crate of the repository, and is left out without cargo.
"""

import os
import re
import shutil
import subprocess
import sys
from pathlib import Path

document, prefix = map(Path, sys.argv[1:3])
build = sys.argv[3:]
os.environ["PKG_CONFIG_PATH"] = str(prefix / "lib/pkgconfig")
os.environ["LD_LIBRARY_PATH"] = str(prefix / "lib")
os.environ["BOOTIMG_LIB_DIR"] = str(prefix / "lib")
os.environ["PYTHONPATH"] = str(prefix / "share/bootimg/python")
os.environ["PYTHONDONTWRITEBYTECODE"] = "1"
os.environ.pop("BOOTIMG_LIBRARY", None)


def build_c(code, program):
    """Compiles a program in C."""
    Path("program.c").write_text(code, encoding="utf-8")
    flags = subprocess.run(["pkg-config", "--cflags", "--libs", "bootimg"], capture_output=True, text=True, check=True).stdout.split()
    warnings = ["-std=c99", "-Wall", "-Wextra", "-pedantic", "-Werror"]
    subprocess.run(["gcc", *warnings, "program.c", *flags, "-o", program], check=True)


def build_python(code, program):
    """Writes a program in Python."""
    Path(program).write_text(code, encoding="utf-8")


def build_rust(code, program):
    """Builds a program in Rust over the crate of the repository."""
    crate = Path("crate")
    (crate / "src").mkdir(parents=True, exist_ok=True)
    (crate / "src/main.rs").write_text(code, encoding="utf-8")
    dependency = f'bootimg = {{ path = "{document.resolve().parents[1] / "rust"}" }}'
    (crate / "Cargo.toml").write_text(f'[package]\nname = "program"\nedition = "2021"\n[dependencies]\n{dependency}\n', encoding="utf-8")
    subprocess.run(["cargo", "build", "--quiet", "--offline", "--manifest-path", "crate/Cargo.toml", "--target-dir", "target"], check=True)
    shutil.copy("target/debug/program", program)


def build_rattle(code, program):
    """Proves and builds a program in Rattle."""
    Path("program.rt").write_text(code, encoding="utf-8")
    subprocess.run([*build, "program.rt", Path(program).name], check=True)


BUILDERS = {"c": build_c, "python": build_python, "rust": build_rust, "rattle": build_rattle}


def output(command):
    """What a command prints, and its status if that is not 0."""
    done = subprocess.run(command, shell=True, capture_output=True, text=True, check=False)
    return done.stdout + (f"{done.stderr}status {done.returncode}\n" if done.returncode else "")


text = document.read_text(encoding="utf-8")
blocks = re.findall(r"^```(c|python|rust|text)\n(.*?)^```$", text, re.M | re.S)
seen, wrong = set(), 0
for (kind, code), (shown, run) in zip(blocks, blocks[1:] + [("", "")]):
    if kind == "text":
        continue
    if kind == "rust" and code.startswith("#![tactic("):
        kind = "rattle"
    if kind == "rust" and not shutil.which("cargo"):
        print("left out: a program in Rust, without cargo")
        continue
    if shown != "text":
        sys.exit(f"no output of a program in {kind}:\n{code}")
    command, wanted = run.removeprefix("$ ").split("\n", 1)
    words = command.split()
    BUILDERS[kind](code, next((word for word in words if word.endswith(".py")), words[0]))
    seen.add(kind)
    got = output(command)
    if got != wanted:
        print(f"{command} prints:\n{got}and not:\n{wanted}")
        wrong += 1
missing = set(BUILDERS) - seen - (set() if shutil.which("cargo") else {"rust"})
if missing:
    print(f"no program in {missing}")
sys.exit(1 if wrong or missing else 0)
