"""Builds the two programs that `run` and `compare` need, and finds them."""
import os
import subprocess

HERE = os.path.dirname(os.path.realpath(__file__))
TOP = os.path.dirname(HERE)


def mcslab():
    """Proves and builds the program, unless that was done since the last change."""
    folder = f"{TOP}/crates/mcslab"
    subprocess.run(["rt", "run"], cwd=folder, stdin=subprocess.DEVNULL, stdout=subprocess.DEVNULL, check=True)
    return f"{folder}/out/mcslab"


def plain():
    """Builds the plain program where its source is newer."""
    source, made = f"{HERE}/plain", f"{HERE}/out/plain"
    newest = max(os.path.getmtime(f"{source}/{name}") for name in os.listdir(source))
    if not os.path.exists(made) or os.path.getmtime(made) < newest:
        os.makedirs(f"{HERE}/out", exist_ok=True)
        options = ["-O", "-C", "target-cpu=x86-64-v2", "--edition", "2021", "-o", made]
        subprocess.run(["rustc", *options, f"{source}/main.rs"], check=True)
    return made
