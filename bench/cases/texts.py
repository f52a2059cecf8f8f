"""Cases that are texts: each file in a crate's data/ is one, and so is a file that is not there. What pairs.py and nets.py do with them."""

import re
from collections import namedtuple

import cases

# A text by its name, what stands in front of it, if anything, and the words that are expected of it, or None.
Case = namedtuple("Case", "front name expected")


class Texts:
    """The texts of a crate. Lines of a case end with one that begins with one of the endings; `args` has some lines between two texts, or none. After all texts
    come `more` cases: some of the texts once more, with something in front of them."""

    def __init__(self, crate, missing, endings, between="", more=()):
        self.crate = cases.HERE.parent.parent / "crates" / crate
        self.data, self.args, self.stdout = self.crate / "data", self.crate / "args", self.crate / "stdout"
        self.missing, self.endings, self.between, self.more = missing, endings, between, more

    def cases(self):
        """The texts in the order of their names, which begin with what they are about; then the one that is not there, and those that come once more."""
        names = [*sorted(path.name for path in self.data.iterdir()), self.missing]
        return [*(Case((), name, self.expected(name)) for name in names), *self.more]

    def arguments(self):
        """What stands in front of a text holds for those after it too, and so stands only where it is another."""
        lines, before = [], ()
        for case in self.cases():
            front = () if case.front == before else case.front
            lines.append("".join(f"{word}\n" for word in (*front, case.name)))
            before = case.front
        return self.between.join(lines)

    def expected(self, name):
        """The words between `; expect` and a colon at a text's beginning, or None."""
        found = re.match(rb"; expect ([^:\n]*):", cases.contents(self.data / name) or b"")
        return found and found[1].split()

    def lines_of(self, program, case):
        return cases.lines_of(program, *case.front, self.data / case.name)

    def make(self, program):
        self.args.write_text(self.arguments())
        self.stdout.write_bytes(b"".join(self.lines_of(program, case) for case in self.cases()))

    def complaints(self, program, case, lines):
        """What is wrong with one case, in words. A text may expect all of its lines or one of them."""
        named = " ".join((*case.front, case.name))
        if self.lines_of(program, case) != lines:
            yield f"{program[-1]} does not write the lines of {named}"
        if case.expected not in (None, lines.split(), *map(bytes.split, lines.splitlines())):
            yield f"the lines of {named} are not what it expects"

    def check(self, program):
        known = self.cases()
        lines = cases.parted(self.stdout.read_bytes(), self.endings)
        found = [words for case, own in zip(known, lines) for words in self.complaints(program, case, own)]
        if self.args.read_text() != self.arguments() or len(lines) != len(known) or self.stdout.read_bytes() != b"".join(lines):
            found.append("args or stdout do not have the cases in their order")
        if cases.lines_of(program):
            found.append(f"{program[-1]} writes something without a file")
        return cases.verdict(len(known), found)
