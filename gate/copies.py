"""Copies what is verified: all that the toolchain's gate reads except the must-fail edits, and those into a folder of
their own. So the verification sees no edit that is made meanwhile, and what the toolchain makes stays out of the
checkout."""
import os
import shutil
import subprocess

# The parts of a crate that the toolchain's gate does not get.
APART = ("must-fail", "out")
NAMES = ("crates.txt", "HANDLES", "BUILD.bazel", "MODULE.bazel")
# The shell's words that archive the sources of the folder $2, as built_from.sh of the checkout $1 does, and those that
# record a program or a library.
ARCHIVE = '. "$1/built_from.sh" && root=$2 && find_toolchain && archive_built'
RECORD = 'root=$1 && . "$1/built_from.sh" && find_toolchain && "of_$2" "$3" && record_build "$4"'


def is_read(inside):
    """Whether the toolchain's gate looks at the file: at each below crates/, and elsewhere for files that are not allowed."""
    parts = inside.split(os.sep)
    if parts[0] == "crates":
        return len(parts) < 3 or parts[2] not in APART
    return parts[-1] in NAMES or parts[-1].endswith((".rt", ".antt"))


def copy_file(source, to):
    os.makedirs(os.path.dirname(to), exist_ok=True)
    shutil.copy2(source, to, follow_symlinks=False)


def copy_sources(root, to):
    """Copies what the toolchain's gate reads, without the must-fail edits."""
    # (a folder .git ends its search for the top of a repository)
    os.makedirs(f"{to}/.git")
    for at, folders, files in os.walk(root):
        inside = {it: os.path.relpath(f"{at}/{it}", root) for it in [*folders, *files]}
        is_apart = lambda it: it == ".git" or inside[it].startswith(f"crates{os.sep}") and not is_read(inside[it])
        folders[:] = [it for it in folders if not is_apart(it)]
        for it in folders:
            # (an empty folder is archived too)
            if inside[it].startswith("crates") and not os.path.islink(f"{at}/{it}"):
                os.makedirs(f"{to}/{inside[it]}")
        linked = [it for it in folders if os.path.islink(f"{at}/{it}")]
        for it in [*files, *linked]:
            if is_read(inside[it]):
                copy_file(f"{at}/{it}", f"{to}/{inside[it]}")


def copy_edits(root, to):
    """Copies the must-fail edits, to the same places."""
    for crate in sorted(os.listdir(f"{root}/crates")):
        if os.path.isdir(f"{root}/crates/{crate}/must-fail"):
            shutil.copytree(f"{root}/crates/{crate}/must-fail", f"{to}/crates/{crate}/must-fail", symlinks=True)


def take_back(copy, root, name, file):
    """Copies what was made in the copy of a crate into the checkout."""
    to = f"{root}/crates/{name}/out/{file}"
    os.makedirs(os.path.dirname(to), exist_ok=True)
    shutil.copy2(f"{copy}/crates/{name}/out/{file}", f"{to}.new")
    os.replace(f"{to}.new", to)


def archive(root, copy, to):
    """Writes the sources of the copy as built_from.sh compares them."""
    with open(to, "wb") as it:
        subprocess.run(["sh", "-c", ARCHIVE, "sh", root, copy], stdin=subprocess.DEVNULL, stdout=it, check=True)


def record(root, kind, name, before):
    """Records that the program or the library, which is its kind, is built from what was archived. Returns whether that
    is still in the checkout."""
    ran = subprocess.run(["sh", "-c", RECORD, "sh", root, kind, name, before], stdin=subprocess.DEVNULL, check=False)
    return ran.returncode == 0
