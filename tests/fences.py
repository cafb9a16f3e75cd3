"""The fences of a page in Markdown."""

from dataclasses import dataclass, field


@dataclass
class Fence:
    """A fence: the number of its first line, the words of that line, and the lines inside."""

    number: int
    words: list
    lines: list = field(default_factory=list)
    is_ended: bool = False

    def is_program(self):
        """Whether it is a whole program."""
        return any(line.startswith("fn main(") for line in self.lines)


def fences(numbered):
    """The fences among numbered lines; one without an end goes on to the last of them."""
    found = []
    for number, line in numbered:
        is_open = bool(found) and not found[-1].is_ended
        if not is_open and line.startswith("```"):
            found.append(Fence(number, line[3:].split()))
        elif is_open and line == "```":
            found[-1].is_ended = True
        elif is_open:
            found[-1].lines.append(line)
    return found


def fences_of(text):
    """The fences of a page."""
    return fences(enumerate(text.split("\n"), 1))
