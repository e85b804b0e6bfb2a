"""For tests/package: programs that are built over an unpacked package by pkg-config, CMake and make, each if it is
found."""
import re
import shutil
import subprocess


def run(words, folder, environment):
    how = {"stdin": subprocess.DEVNULL, "capture_output": True, "timeout": 120}
    return subprocess.run(words, cwd=folder, env=environment, **how)


def fault(what, done, is_right):
    """What there is to say of a command that didn't do what it has to."""
    said = f"{what}: status {done.returncode}, {done.stdout[-1000:]}, {done.stderr[-1000:]}"
    return [] if is_right else [said]


def way(page, first, compiler):
    """The commands of a page that begin with a word, by the compiler."""
    return re.search(rf"^```\n({first} .*?)^```$", page, re.M | re.S)[1].replace("gcc ", f"{compiler} ")


def page_and_config(package):
    page = (package / "README.md").read_text()
    page = page[page.index("## With pkg-config or CMake") :]
    return page, re.search(r"```cmake\n(.*?)^```$", page, re.M | re.S)[1]


def by_the_page(package, name, commands, environment):
    """The example of docs/C.md by the commands of the package's page."""
    wanted = re.search(r"It prints:\n\n```\n(.*?)```", (package / "docs/C.md").read_text(), re.S)[1].encode()
    done = run(["sh", "-ec", commands], package, environment)
    return fault(name, done, done.returncode == 0 and done.stdout.endswith(wanted))


def tells_version(package, version, environment):
    with_path = {**environment, "PKG_CONFIG_PATH": str(package / "c")}
    done = run(["pkg-config", "--modversion", "dekarino"], package, with_path)
    return fault("the version that pkg-config tells", done, done.stdout.decode() == f"{version}\n")


def finds_versions(package, version, config, environment):
    """CMake finds the package by its version and by its series, and by no other, and builds with the processes."""
    major, minor, last = (int(part) for part in version.split("."))
    asked = {f"{major}.{minor}": True, f"{version} EXACT": True, f"{major}.{minor}.{last + 1}": False,
             f"{major}.{minor + 1}": False, f"{major + 1}.{minor}": False}
    faults = []
    for number, (words, has_it) in enumerate(asked.items()):
        folder = package.parent / f"asked {number}"
        folder.mkdir()
        text = config.replace("dekarino REQUIRED", f"dekarino {words} REQUIRED").replace("apex)", "processes)")
        (folder / "CMakeLists.txt").write_text(text)
        shutil.copy2(package / "first.c", folder)
        make = f"cmake -S . -B build '-DCMAKE_PREFIX_PATH={package / 'c'}' && cmake --build build"
        done = run(["sh", "-ec", make], folder, environment)
        faults += fault(f"find_package(dekarino {words})", done, (done.returncode == 0) == has_it)
    return faults


def faults(package, version, compiler, bare):
    """All that went wrong. The package has the first.c of docs/C.md; bare is an environment of a search path alone."""
    page, config = page_and_config(package)
    (package / "CMakeLists.txt").write_text(config)
    environment, found = {**bare, "CC": compiler}, []
    has = {name: shutil.which(name, path=bare["PATH"]) is not None for name in ["pkg-config", "cmake", "make"]}
    if has["pkg-config"]:
        found += by_the_page(package, "pkg-config", way(page, "export", compiler), environment)
        found += tells_version(package, version, environment)
    if has["cmake"] and has["make"]:
        found += by_the_page(package, "cmake", way(page, "cmake", compiler), environment)
        found += finds_versions(package, version, config, environment)
    if has["make"]:
        for name in ["two_processes", "recorder"]:
            done = run(["make", "-s", "check", f"CC={compiler}"], package / "c/examples" / name, bare)
            found += fault(f"the Makefile of {name}", done, done.returncode == 0 and not done.stderr)
    return found
