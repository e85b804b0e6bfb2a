"""The package 'dekarino': which shared object and programs it takes, in a small checkout, in an unpacked package, and
where it is installed."""
import os
import pathlib
import shutil
import subprocess
import sys
import tempfile
import unittest

ROOT = pathlib.Path(__file__).resolve().parent.parent.parent
SCRIPT = """
from dekarino import LibraryError, Module
from dekarino._program import find_program
for find in (lambda: Module.open(b""), lambda: find_program("apexports")):
    try:
        print(find())
    except LibraryError as error:
        print(error)
"""


class Found(unittest.TestCase):
    def setUp(self):
        folder = tempfile.TemporaryDirectory()
        self.addCleanup(folder.cleanup)
        self.root = pathlib.Path(folder.name).resolve()
        shutil.copytree(ROOT / "python/dekarino", self.root / "python/dekarino",
                        ignore=shutil.ignore_patterns("__pycache__"))

    def said(self):
        """What is said of the shared object, and then of a program."""
        environment = {"PATH": os.environ["PATH"], "PYTHONPATH": str(self.root / "python"),
                       "PYTHONDONTWRITEBYTECODE": "1"}
        ran = subprocess.run([sys.executable, "-c", SCRIPT], env=environment, stdin=subprocess.DEVNULL,
                             stdout=subprocess.PIPE, stderr=subprocess.STDOUT, text=True)
        return ran.stdout.splitlines()

    def write(self, name, text):
        path = self.root / name
        path.parent.mkdir(parents=True, exist_ok=True)
        path.write_text(text)

    def checkout(self):
        """A small checkout, whose files were made of its sources."""
        self.write("python/build", "")
        for name, text in (("crates.txt", "a b"), ("crates/a/src/lib.rt", "1"), ("crates/a-b/src/lib.rt", "2"),
                           ("crates/a/specs/Lib.antt", "3"), ("crates/a/proofs/law/Answers.antt", "4"),
                           ("crates/a/must-fail/other.edit", "5"), ("crates/a/out/lib", "6")):
            self.write(name, text)
        for name in ("libdekarino.so", "apexports"):
            self.write(f"python/out/{name}", name)
        self.record()

    def record(self):
        """Notes the sources and the files by the script's own functions."""
        words = ('root=$1; . "$2/built_from.sh"; cd "$root/python/out"; sources=$(list_sources | sha256sum); '
                 'echo "sources ${sources%% *}"; sha256sum libdekarino.so apexports')
        ran = subprocess.run(["sh", "-c", words, "sh", str(self.root), str(ROOT)], stdout=subprocess.PIPE, check=True)
        (self.root / "python/out/BUILT_FROM").write_bytes(ran.stdout)

    def refused(self, *names):
        """What is said if the files of these names are refused."""
        command = f"run {self.root}/python/build"
        return [f"{self.root}/python/out/{name} is not made of the sources of this checkout: {command}"
                for name in names]

    def test_of_these_sources(self):
        self.checkout()
        library, program = self.said()
        self.assertRegex(library, f"^{self.root}/python/out/libdekarino.so is no shared object of the C interface: ")
        self.assertEqual(program, f"{self.root}/python/out/apexports")

    def test_of_other_sources(self):
        self.checkout()
        self.write("crates/a/src/lib.rt", "7")
        self.assertEqual(self.said(), self.refused("libdekarino.so", "apexports"))
        self.record()
        self.write("crates/a/proofs/more", "8")
        self.assertEqual(self.said(), self.refused("libdekarino.so", "apexports"))
        self.record()
        self.write("crates/a/must-fail/other.edit", "9")
        self.assertEqual(self.said()[1], f"{self.root}/python/out/apexports")

    def test_another_file(self):
        self.checkout()
        self.write("python/out/libdekarino.so", "an older one")
        self.assertEqual(self.said(), [*self.refused("libdekarino.so"), f"{self.root}/python/out/apexports"])
        (self.root / "python/out/BUILT_FROM").unlink()
        self.assertEqual(self.said(), self.refused("libdekarino.so", "apexports"))

    def test_beside_the_package(self):
        """One that is beside the package in a checkout is not taken."""
        self.checkout()
        shutil.rmtree(self.root / "python/out")
        self.write("python/dekarino/libdekarino.so", "an older one")
        command = f"run {self.root}/python/build"
        self.assertEqual(self.said(), [f"there is no {name} at {self.root}/python/out/{name}: {command}"
                                       for name in ("libdekarino.so", "apexports")])

    def test_in_an_unpacked_package(self):
        self.write("BUILT_FROM", "dekarino 0")
        places = {"libdekarino.so": "c/libdekarino.so", "apexports": "apexports"}
        self.assertEqual(self.said(), [f"there is no {name} at {self.root}/{place}: unpack the package again"
                                       for name, place in places.items()])

    def test_installed(self):
        remedy = "it belongs to the installed package: install that again"
        self.assertEqual(self.said(), [f"there is no {name} at {self.root}/python/dekarino/{name}: {remedy}"
                                       for name in ("libdekarino.so", "apexports")])


if __name__ == "__main__":
    unittest.main()
