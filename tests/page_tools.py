"""What the tests of the page share: checks, pages that are written or served, and checks of every page."""
import contextlib
import json
import os
import pathlib
import re
import signal
import subprocess
import sys
import tempfile

sys.dont_write_bytecode = True
import browser

ROOT = pathlib.Path(__file__).resolve().parent.parent
EXAMPLES = ROOT / "examples"
ENVIRONMENT = {**os.environ, "PYTHONPATH": str(ROOT / "python"), "PYTHONDONTWRITEBYTECODE": "1"}
# What breaks out of a text of HTML that isn't escaped.
HOSTILE = "</script><img src=x onerror=hit=1><!--'\"&"
checks = failures = 0


def check(is_so, what):
    global checks, failures
    checks += 1
    if not is_so:
        failures += 1
        print(f"FAILED: {what}", flush=True)


def equal(found, wanted, what):
    check(found == wanted, f"{what}: {found!r}, and not {wanted!r}")


def dekarino(*words, cwd=ROOT):
    return subprocess.run([sys.executable, "-m", "dekarino", *map(str, words)], cwd=cwd, env=ENVIRONMENT,
                          stdin=subprocess.DEVNULL, stdout=subprocess.PIPE, stderr=subprocess.PIPE, text=True, timeout=120)


def view(work, config, trace, *more):
    """The address of a page that was written."""
    made = work / "page.html"
    ran = dekarino("view", config, trace, *more, "-o", made)
    equal((ran.returncode, ran.stdout, ran.stderr), (0, "", ""), f"view of {trace}")
    return made.as_uri()


def calls_of(text):
    return [line for line in text.splitlines() if line.strip() and not line.lstrip().startswith("#")]


def texts(page, selector):
    return page.run(f"[...document.querySelectorAll({json.dumps(selector)})].map(it => it.textContent)")


def calm(page, what):
    """Fails if the page logged an error or requested anything."""
    equal(page.complaints(), [], f"complaints of {what}")
    asked = [it for it in page.requests() if not it.startswith(("file:", "data:", "blob:", "http://127.0.0.1:", "about:"))]
    equal(asked, [], f"requests of {what}")


LUMINANCE = """(() => {
  const level = text => { const [r, g, b] = text.match(/[\\d.]+/g).map(it => it / 255)
    .map(it => it <= 0.04045 ? it / 12.92 : ((it + 0.055) / 1.055) ** 2.4); return 0.2126 * r + 0.7152 * g + 0.0722 * b; };
  const back = it => { while (it) { const found = getComputedStyle(it).backgroundColor;
    if (found !== 'rgba(0, 0, 0, 0)') return found; it = it.parentElement; } };
  const ratio = (a, b) => (Math.max(a, b) + 0.05) / (Math.min(a, b) + 0.05);
  return Math.min(...[...document.querySelectorAll('p, dt, dd, li, button, .number i, .reply, .asked, h1, strong, em')]
    .filter(it => it.textContent && it.offsetParent && !it.disabled)
    .map(it => ratio(level(getComputedStyle(it).color), level(back(it)))));
})()"""


def widths_and_modes(page):
    """On the page that is open: both widths, both modes, what shapes alone show, and contrast."""
    grounds = set()
    for width in (1280, 400):
        for is_dark in (False, True):
            page.size(width, 900)
            page.dark(is_dark)
            page.run("new Promise(it => requestAnimationFrame(() => requestAnimationFrame(it)))")
            where = f"{width} pixels, {'dark' if is_dark else 'light'}"
            check(page.run("document.documentElement.scrollWidth <= innerWidth"), f"{where}: wider than the window")
            ratio = page.run(LUMINANCE)
            check(ratio >= 4.5, f"{where}: contrast {ratio:.2f}")
            grounds.add(page.run("getComputedStyle(document.body).backgroundColor"))
            check(len(page.picture()) > 10_000, f"{where}: no picture")
    equal(len(grounds), 2, "light and dark")
    page.size(1280, 900)
    page.dark(False)


def large_trace(folder, count):
    """A trace of many calls: two messages are sent and received, over and over."""
    folder.mkdir()
    lines = ["1 FMS create-queuing NAV_OUT 4 2 0 0", "2 DSP create-queuing NAV_IN 4 2 1 0"]
    calls = ["FMS send 1 0a", "FMS send 1 0b", "DSP receive 1", "DSP receive 1"]
    lines += [f"{at + 3} {calls[at % 4]}" for at in range(count - 2)]
    (folder / "trace.txt").write_text("\n".join(lines) + "\n")
    return EXAMPLES / "readme/config.toml", folder / "trace.txt"


@contextlib.contextmanager
def served(work, *words, end=os.kill):
    """A server in an empty folder, and its address. It ends by Ctrl-C and leaves nothing. end: what sends the signal."""
    folder = work / "empty"
    folder.mkdir(exist_ok=True)
    process = subprocess.Popen([sys.executable, "-m", "dekarino", "serve", *map(str, words)], cwd=folder, env=ENVIRONMENT,
                               stdin=subprocess.DEVNULL, stdout=subprocess.PIPE, stderr=subprocess.PIPE, text=True,
                               start_new_session=True)
    try:
        yield process.stdout.readline().split()[0]
        end(process.pid, signal.SIGINT)
        output, errors = process.communicate(timeout=20)
        equal((process.returncode, output, errors, list(folder.iterdir())), (0, "", "", []), "the end by Ctrl-C")
        with contextlib.suppress(ProcessLookupError):
            os.killpg(process.pid, 0)
            check(False, "a process is left")
    finally:
        process.kill()
        process.communicate()


def has_browser(name):
    if browser.path() is None:
        print(f"{name}: SKIPPED: the page in a browser: install chromium")
    return browser.path() is not None


def run(name, main):
    """Runs a test in a folder of its own, says what it measured, and ends with its status."""
    built = subprocess.run([ROOT / "python/build"], stdin=subprocess.DEVNULL, stderr=subprocess.PIPE, text=True)
    if built.returncode != 0:
        sys.exit(f"{name}: FAILED: no program: {built.stderr}")
    with tempfile.TemporaryDirectory() as folder:
        measured = main(pathlib.Path(folder).resolve())
    print(f"{name}: {checks} checks, {measured}, {failures} failures")
    sys.exit(failures != 0)
