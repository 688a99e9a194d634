"""The programs of the repository, built from the sources as they stand."""
import subprocess
from pathlib import Path

ROOT = Path(__file__).resolve().parent.parent


def built(name):
    """The path of a program, proved and built anew where its sources changed."""
    crate = ROOT / "crates" / name
    subprocess.run(["rt", "run"], cwd=crate, stdin=subprocess.DEVNULL, stdout=subprocess.DEVNULL, stderr=subprocess.DEVNULL, check=True)
    return crate / "out" / name
