"""The report of a check of a crate: the goals that were not proved, by their places, and what could not be read."""
import re

PLACED = re.compile(r"(?:note: )?(?:\./)?((?:src|specs|proofs)/\S+?):(\d+):\d+: (.*)")
# The prover's words about a goal in a source file that it tried and did not prove.
OPEN_GOAL = re.compile(r"it is not proved that |` found no proof")
# Its words about a text that it can't read, or that uses a name that doesn't exist. Quotations are removed before.
UNREADABLE = re.compile(
    r"is not in scope|has no field|has no ``|is no name|operand is missing|expected the end|cannot continue|"
    r"was not admitted"
)
# The last line of a check whose goals were tried: of a whole crate, or of the functions that --only names.
JUDGED = re.compile(r"logic=not-proved|only=\d+ proved=\d+$")


class Line:
    """A line with its place: a file of the crate and a number."""

    def __init__(self, text, path, number, said):
        self.text, self.path, self.number, self.said, self.copy = text, path, number, said, None

    def move(self, path, number, copy):
        """Gives it another place, which is of a function's copy if one is given."""
        self.text = self.text.replace(f"{self.path}:{self.number}:", f"{path}:{number}:", 1)
        self.path, self.number, self.copy = path, number, copy

    def is_front_end(self):
        """Whether the text was refused before any proof: it does not parse, a name isn't found, a type doesn't fit."""
        return self.said.startswith("error[")

    def is_unreadable(self):
        """Whether the prover could not read a clause, a definition or a proof, or a name in it doesn't exist."""
        error = re.match(r"error: (?:`[^`]*`: )?(.*)", self.said)
        has_declaration = self.said.startswith("error: `")
        quoted_out = re.sub(r"`[^`]*`", "``", error[1]) if error else ""
        return bool(error) and (not has_declaration or bool(UNREADABLE.search(quoted_out)))

    def is_goal(self):
        """Whether it names a goal that the prover tried and did not prove."""
        if self.path.startswith("src/"):
            return bool(OPEN_GOAL.search(self.said))
        return self.said.startswith("error: ") and not self.is_unreadable()


class Said:
    """All that one check said, and its status."""

    def __init__(self, text, status):
        self.text, self.status = text, status
        rows = text.rstrip("\n").split("\n")
        self.first, self.last = rows[0], rows[-1]
        # (what the prover says of a place can go on in the next row, which is indented)
        whole = [row + below if below.startswith("  ") else row for row, below in zip(rows, [*rows[1:], ""])]
        placed = [(row, PLACED.match(row)) for row in whole]
        self.lines = [Line(row, it[1], int(it[2]), it[3]) for row, it in placed if it]

    def is_judged(self):
        """Whether the goals were tried, and not all proved."""
        return self.status == 1 and bool(JUDGED.match(self.last))

    def callers(self):
        """Returns the functions, by their names below the crate, that call one which is not proved."""
        return set(re.findall(r"^fn \w+?::(\S+): .*\bit calls `", self.text, re.M))

    def proved_but_for_calls(self):
        """Returns the functions, by their names below the crate, that are proved, or would be if what they call were."""
        ends = r"(?:proved\b|no proof: it calls `|not proved; it calls `)"
        return set(re.findall(rf"^fn \w+?::(\S+): {ends}", self.text, re.M))

    def goals(self):
        return [it for it in self.lines if it.is_goal()]

    def wrong_shapes(self):
        """Returns the lines about texts that could not be read. Those of proofs count only if there are no others, since
        an edit that changes a meaning often also removes a name that a proof has."""
        is_wrong = lambda it: it.is_front_end() or it.is_unreadable() and not it.path.startswith("proofs/")
        return [it for it in self.lines if is_wrong(it)]
