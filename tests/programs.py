"""Which programs the tests run."""
import pathlib
import subprocess
import sys

ROOT = pathlib.Path(__file__).resolve().parent.parent


def path(name, place=None):
    """Returns the path of the program: the one that the argument at this place names, or that of this checkout, built or
    prebuilt."""
    if place and sys.argv[place:]:
        return pathlib.Path(sys.argv[place]).resolve()
    done = subprocess.run([ROOT / "tests/program", name], stdin=subprocess.DEVNULL, capture_output=True, text=True)
    if done.returncode:
        sys.exit(f"FAILED: {done.stderr.strip()}: build it by ./{name} --version")
    return pathlib.Path(done.stdout.rstrip("\n"))
