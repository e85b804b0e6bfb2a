"""Tries the must-fail edits of a crate: first many in one check, if each changes another function or a copy of one, and
then each edit that this doesn't decide alone. An edit counts as refused only if the prover names a goal that it did not
prove."""
import edits
import function_copies


class Verdict:
    """Whether the prover refuses the crate with an edit because of its meaning, and the words for that."""

    def __init__(self, is_refused, words):
        self.is_refused, self.words = is_refused, words


def refused(line):
    return Verdict(True, f"refused: {line.text[:200]}")


def by_shape(line):
    why = "refused by its shape, so no contract was tried: give it a form that compiles"
    return Verdict(False, f"{why}: {line.text[:200]}")


def own_lines(edit, lines, sources):
    """Returns those of the lines whose places are in the functions that the edit changes, or in their proofs."""
    folders = tuple(filter(None, (it.proofs(sources) for it in edit.functions)))
    spans = [(it.path, it.top, it.end) for it in edit.functions]
    is_own = lambda line: line.path.startswith(folders) or any(
        line.path == path and top <= line.number <= end for path, top, end in spans
    )
    return [it for it in lines if it.copy is None and is_own(it)]


def judged_alone(report):
    """Returns the verdict of a check of the whole crate with one edit."""
    if report.status == 0:
        return Verdict(False, "NOT REFUSED: the crate is still proved with this edit")
    wrong = report.wrong_shapes()
    if wrong:
        return by_shape(wrong[0])
    if not report.is_judged():
        return Verdict(False, f"no verdict: {report.last[:300]}")
    if report.goals():
        return refused(report.goals()[0])
    unreadable = [it for it in report.lines if it.is_unreadable()]
    if unreadable:
        return by_shape(unreadable[0])
    return Verdict(False, f"no goal is named that was not proved: {report.last[:300]}")


class Trials:
    """The trials of one crate's edits."""

    def __init__(self, crate, tried, sources, check, tell=lambda edit, verdict: None):
        """crate: its name; tried: the edits; sources: the texts of the crate's source files by path; check: gets the
        texts of changed and new files, and the names of the functions to check, or none for the whole crate; and
        returns what was said."""
        self.crate, self.sources, self.check, self.tell = crate, sources, check, tell
        self.left, self.in_place = list(tried), []
        self.verdicts, self.checks, self.seen = {}, 0, set()

    def run(self):
        """Returns the verdict on each edit by its name."""
        self.round()
        # once more, since the goals of a function can wait for the proof of one that it calls
        self.round()
        for edit in list(self.left):
            self.end(edit, self.alone(edit))
        return self.verdicts

    def alone(self, edit):
        """Returns the verdict on an edit that is tried alone. If the edit names the function that it breaks, and that has a
        goal that is not proved, this decides; otherwise the whole crate does."""
        texts = edits.merged([edit], self.sources)
        report = edit.breaks and self.checked(texts, [edit.breaks])
        if report and report.is_judged() and report.goals() and not report.wrong_shapes():
            return refused(report.goals()[0])
        return judged_alone(self.checked(texts, []))

    def round(self):
        """Tries all remaining edits that change only bodies, many in each check, but none twice with the same others."""
        found = [it for it in edits.batches(self.left) if it[0].functions]
        can_be_copied = lambda it: it not in self.in_place and function_copies.can_be_copied(it, self.sources)
        beside = [it for batch in found[1:] for it in batch if can_be_copied(it)]
        for at, batch in enumerate(found):
            here = [it for it in batch if it not in beside]
            names = tuple(it.name for it in here)
            if names and names not in self.seen:
                self.seen.add(names)
                self.try_batch(here, [] if at else beside)

    def try_batch(self, batch, beside=()):
        """Tries in one check the edits of the batch in place, and those beside in copies of their functions."""
        copies, names = function_copies.Copies(self.crate, beside, self.sources), self.names(batch)
        texts = copies.written(edits.merged(batch, self.sources))
        report = self.checked(texts, names and [*names, *copies.names()])
        if names and report.status == 2:
            # (the prover knows one of the functions by another name)
            report = self.checked(texts, [])
        copies.place(report.lines)
        if report.is_judged():
            self.tell_goals(batch, report)
            self.tell_copies(copies, report)
            return
        # the line says which edit the front end refuses, and the others are tried without it
        of_shape = report.wrong_shapes()
        wrong = {edit: own_lines(edit, of_shape, self.sources) for edit in batch}
        for edit in [it for it in batch if wrong[it]]:
            self.end(edit, by_shape(wrong[edit][0]))
        # (a copy may be refused only because it is a copy, so its edit waits to be tried in place)
        in_place = [it for it in beside if copies.are_named(it, of_shape)]
        self.in_place += in_place
        rest = [it for it in batch if not wrong[it]]
        rest_beside = [it for it in beside if it not in in_place]
        if (len(rest) < len(batch) or in_place) and len(rest) + len(rest_beside) > 1:
            self.try_batch(rest, rest_beside)

    def tell_copies(self, copies, report):
        """Ends the trial of each edit whose copy has a goal that is not proved, if the unchanged function has none."""
        for edit in copies.of_edits:
            own = copies.own(edit, report.goals())
            if own and copies.is_whole_proved(edit, report):
                self.end(edit, refused(own[0]))

    def tell_goals(self, batch, report):
        """Ends the trial of each edit that has a goal of its own. If a function that no edit changes has an open goal too,
        a caller's goal may be open because of what it calls, so no edit of a caller is counted."""
        goals = {edit: own_lines(edit, report.goals(), self.sources) for edit in batch}
        has_stray = any(it.copy is None and all(it not in own for own in goals.values()) for it in report.goals())
        callers = report.callers()
        for edit in [it for it in batch if goals[it]]:
            names = self.names([edit])
            if not has_stray or names and not callers & set(names):
                self.end(edit, refused(goals[edit][0]))

    def names(self, batch):
        """Returns the functions' names as the prover has them, or none if one is not known."""
        folders = [it.proofs(self.sources) for edit in batch for it in edit.functions]
        return ["::".join(it.split("/")[1:-1]) for it in folders] if all(folders) else []

    def checked(self, texts, names):
        self.checks += 1
        return self.check(texts, names)

    def end(self, edit, verdict):
        self.left.remove(edit)
        self.verdicts[edit.name] = verdict
        self.tell(edit, verdict)
