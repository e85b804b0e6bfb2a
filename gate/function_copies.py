"""Copies of functions under other names, with the same clauses and the same proof. So several edits of one function can
be tried in one check. The crate's own functions call no copy."""
import re

# The endings of a copy's name: with an edit, whose number follows, and without one.
WITH_EDIT, UNCHANGED = "_with_edit_", "_unchanged"


def can_be_copied(edit, sources):
    """Whether the edit changes exactly one function, and this can be copied under another name: it belongs to no trait,
    and doesn't share its proof."""
    if not edit.functions or len(edit.functions) != 1:
        return False
    (of,) = edit.functions
    head = "\n".join(sources[of.path].split("\n")[of.top - 1 : of.head])
    is_of_no_trait = of.owner is not None and of.owner[0] == of.owner[1]
    return is_of_no_trait and of.proofs(sources) is not None and "cycle(" not in head


class FunctionCopy:
    """A copy of a function: its name and, once it is written, its lines in the file."""

    def __init__(self, function, ending, changed, sources):
        """changed: the lines of the function's file that differ in the copy, by their numbers."""
        self.function, self.name, self.changed = function, function.name + ending, changed
        self.proofs = function.proofs(sources)
        self.own_proofs = self.proofs[: -len(function.name) - 1] + self.name + "/"
        self.first = self.last = 0

    def prover_name(self):
        return "::".join(self.own_proofs.split("/")[1:-1])

    def lines(self, lines):
        """Returns its lines, where lines are those of the function's file."""
        of = self.function
        own = [self.changed.get(at, lines[at - 1]) for at in range(of.top, of.end + 1)]
        head = of.head - of.top
        own[head] = re.sub(rf"\bfn {of.name}\b", f"fn {self.name}", own[head], count=1)
        return own

    def proof_files(self, crate, sources):
        """Returns the texts of its proof files by path."""
        was, now = (f"Rattle.{crate}." + it.replace("/", ".") for it in (self.proofs, self.own_proofs))
        return {self.own_proofs + path[len(self.proofs):]: text.replace(was, now)
                for path, text in sources.items() if path.startswith(self.proofs)}


class Copies:
    """The copies of one check: one for each edit, and an unchanged one of each function that the edits change."""

    def __init__(self, crate, edits, sources):
        self.crate, self.sources, self.of_edits, self.whole = crate, sources, {}, {}
        for number, edit in enumerate(edits):
            (of,) = edit.functions
            changed = edit.changes[of.path]
            self.of_edits[edit] = FunctionCopy(of, f"{WITH_EDIT}{number}", changed, sources)
            self.whole.setdefault((of.path, of.head), FunctionCopy(of, UNCHANGED, {}, sources))

    def all(self):
        return [*self.of_edits.values(), *self.whole.values()]

    def names(self):
        return [it.prover_name() for it in self.all()]

    def written(self, texts):
        """Returns the texts with those of the copies. texts: the changed files."""
        texts = dict(texts)
        for path in {it.function.path for it in self.all()}:
            made, lines = [], self.sources[path].split("\n")
            for at, line in enumerate(texts.get(path, self.sources[path]).split("\n"), 1):
                made.append(line)
                for it in self.all():
                    if (it.function.path, it.function.end) == (path, at):
                        own = it.lines(lines)
                        it.first, it.last = len(made) + 2, len(made) + 1 + len(own)
                        made += ["", *own]
            texts[path] = "\n".join(made)
        for it in self.all():
            texts.update(it.proof_files(self.crate, self.sources))
        return texts

    def place(self, lines):
        """Gives each line of a check of the written texts its place in the sources, and its copy if it has one."""
        for line in lines:
            path, number, more = line.path, line.number, 0
            for it in self.all():
                if path.startswith(it.own_proofs):
                    line.move(it.proofs + path[len(it.own_proofs):], number, it)
                elif path == it.function.path and it.first <= number <= it.last:
                    line.move(path, number - it.first + it.function.top, it)
                elif path == it.function.path and it.last < number:
                    more += 2 + it.last - it.first
            if line.copy is None:
                line.move(path, number - more, None)

    def own(self, edit, lines):
        """Returns those of the placed lines that are of the edit's copy."""
        return [it for it in lines if it.copy is self.of_edits[edit]]

    def whole_of(self, edit):
        """Returns the unchanged copy of the function that the edit changes."""
        (of,) = edit.functions
        return self.whole[of.path, of.head]

    def are_named(self, edit, lines):
        """Whether one of the placed lines is of the edit's copy, or of the unchanged one."""
        return any(it.copy in (self.of_edits[edit], self.whole_of(edit)) for it in lines)

    def is_whole_proved(self, edit, report):
        """Whether the check proved all of the unchanged copy of the function that the edit changes."""
        whole = self.whole_of(edit)
        return whole.prover_name() in report.proved_but_for_calls() and all(it.copy is not whole for it in report.goals())
