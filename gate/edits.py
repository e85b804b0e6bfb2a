"""The must-fail edits of a crate: what each changes, and the functions in whose bodies the changes are."""
import os
import re

HEAD = re.compile(r'^( *)(?:pub(?:\([^)]*\))? )?(?:const )?(?:unsafe )?(?:extern "C" )?fn (\w+)')
OWNER = re.compile(r"^ *(?:pub(?:\([^)]*\))? )?(?:unsafe )?(?:impl|trait|mod)\b")
# The head of a block of methods, and that of one for a trait without arguments.
METHODS = re.compile(r"^ *(?:unsafe )?impl(?:<.*?>)? (\w+)")
OF_TRAIT = re.compile(r"^ *(?:unsafe )?impl(?:<.*?>)? (\w+) for (\w+)")
# The line by which an edit of a definition names a function whose contract it breaks.
BREAKS = re.compile(r"^# Breaks: (\S+)$", re.M)


class Function:
    """A function of a source file, in the layout of rt fmt: its head is one line with its name, and its body ends at
    the first closing brace with the indentation of the head. Lines count from 1."""

    def __init__(self, path, top, head, body, end, owner, name):
        """top: the first line of its attributes; body: that of the opening brace; owner: as owner_of() gives it."""
        self.path, self.top, self.head, self.body, self.end = path, top, head, body, end
        self.owner, self.name = owner, name

    def proofs(self, sources):
        """Returns the folder of its proof files, which depends on where its type is declared; or None if its owner is
        not known, or its type is not declared in one place."""
        if self.owner is None:
            return None
        of_type, block = self.owner
        declared = re.compile(rf"^(?:pub(?:\([^)]*\))? )?(?:struct|enum) {of_type}\b", re.M)
        files = [path for path, text in sources.items() if declared.search(text)] if of_type else [self.path]
        if len(files) != 1:
            return None
        return "/".join(["proofs", *modules_of(files[0]), *filter(None, [block]), self.name, ""])


def modules_of(path):
    """Returns the modules of a source file, outermost first."""
    modules = os.path.splitext(path)[0].split("/")[1:]
    return modules[:-1] if modules[-1] in ("lib", "main", "mod") else modules


def indent_of(line):
    return len(line) - len(line.lstrip(" "))


def owner_of(lines, at):
    """Returns the type of the `impl` block round the line, and the block's name in the folders of proofs, both "" if
    there is none; or None in a trait, in a module within the file, and for a trait with arguments, whose blocks are
    named otherwise."""
    depth = indent_of(lines[at])
    for line in reversed(lines[:at]):
        found = OWNER.match(line)
        if found and indent_of(line) < depth:
            of_trait, methods = OF_TRAIT.match(line), METHODS.match(line)
            if of_trait:
                return of_trait[2], of_trait[2] + of_trait[1]
            return (methods[1], methods[1]) if methods and " for " not in line else None
    return ("", "") if depth == 0 else None


def top_of(lines, at):
    """Returns the place of the first line of the attributes above the head at this place."""
    while at and lines[at - 1].strip() and not re.search(r"^ *//|[{};]$", lines[at - 1]):
        at -= 1
    return at


def body_of(lines, at, depth):
    """Returns the places of the line that opens the body of the function at this head, and of the line that closes it,
    or None if it has no body of its own lines."""
    opens = None
    for place in range(at, len(lines)):
        line = lines[place]
        other = HEAD.match(line)
        if opens is not None and line == " " * depth + "}":
            return opens, place
        if place > at and line and (indent_of(line) < depth or other and len(other[1]) <= depth):
            return None
        is_end_of_head = place == at or line.startswith(" " * depth + ")")
        if opens is None and (line == " " * depth + "{" or is_end_of_head and line.endswith("{")):
            opens = place
    return None


def functions_of(path, text):
    """Returns the functions of a source file that have a body, each once: one within another is a part of that."""
    lines, found = text.split("\n"), []
    for at, line in enumerate(lines):
        head = HEAD.match(line)
        if not head or found and found[-1].end > at:
            continue
        body = body_of(lines, at, len(head[1]))
        if body:
            top, owner = top_of(lines, at), owner_of(lines, at)
            found.append(Function(path, top + 1, at + 1, body[0] + 1, body[1] + 1, owner, head[2]))
    return found


class Edit:
    """An edit that was read: the lines that it changes, by file and number, and the functions that have these lines."""

    def __init__(self, name, changes, functions, breaks):
        """name: CRATE/FILE; functions: None if a change is outside of every body; breaks: the name of the function
        that the edit says it breaks, or None."""
        self.name, self.changes, self.functions, self.breaks = name, changes, functions, breaks


def changed_lines(old, new):
    """Returns the new lines by their numbers. Their count is the same, since an edit's texts are single lines."""
    pairs = zip(old.split("\n"), new.split("\n"))
    return {at + 1: now for at, (was, now) in enumerate(pairs) if was != now}


def bodies_of(changes, sources):
    """Returns the functions whose bodies hold all changed lines, or None."""
    found = []
    for path, lines in changes.items():
        if not path.startswith("src/"):
            return None
        functions = functions_of(path, sources[path])
        for line in lines:
            around = [it for it in functions if it.body < line < it.end]
            if not around:
                return None
            found += [it for it in around if (it.path, it.head) not in [(one.path, one.head) for one in found]]
    return found


def read(name, texts, sources, breaks=None):
    """Returns the edit with these new texts of files in place of the sources, or None if it changes nothing."""
    changes = {path: changed_lines(sources[path], text) for path, text in texts.items()}
    changes = {path: lines for path, lines in changes.items() if lines}
    return Edit(name, changes, bodies_of(changes, sources), breaks) if changes else None


def broken_by(file):
    """Returns the name of the function that an edit says it breaks, or None."""
    with open(file, encoding="utf-8", errors="replace") as text:
        found = BREAKS.search(text.read())
    return found and found[1]


def merged(edits, sources):
    """Returns the texts of the files that the edits change, with all their changes. No two may change one line."""
    texts = {}
    for edit in edits:
        for path, changed in edit.changes.items():
            lines = texts.setdefault(path, sources[path].split("\n"))
            for line, text in changed.items():
                lines[line - 1] = text
    return {path: "\n".join(lines) for path, lines in texts.items()}


def batches(edits):
    """Returns lists of edits that can be tried in one check: each changes bodies of functions that no other of its list
    changes. An edit that changes something else is alone in its list."""
    found = []
    for edit in edits:
        bodies = {(it.path, it.head) for it in edit.functions or ()}
        for batch, taken in found:
            if bodies and taken and not bodies & taken:
                batch.append(edit)
                taken |= bodies
                break
        else:
            found.append(([edit], bodies))
    return [batch for batch, _ in found]
