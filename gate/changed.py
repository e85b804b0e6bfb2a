"""Prints the files that differ between two archives of built_from.sh.

changed.py BEFORE AFTER
"""
import sys
import tarfile


def files(archive):
    with tarfile.open(archive) as it:
        return {member.name: it.extractfile(member).read() if member.isfile() else None for member in it}


def main(before, after):
    old, new = files(before), files(after)
    names = sorted(it for it in {*old, *new} if it not in old or it not in new or old[it] != new[it])
    print(", ".join(names))


if __name__ == "__main__":
    main(*sys.argv[1:])
