"""A document in its parts: tables, and prose with the numbers of its lines."""
import re


def numbered(text):
    """Line numbers and lines, from 1 on, without what stands between fences."""
    inside = False
    for number, line in enumerate(text.splitlines(), 1):
        if line.startswith("```"):
            inside = not inside
        elif not inside:
            yield number, line


def tables(text):
    """Each table as its head and its rows: a head is cells, a row its line number and cells."""
    found, before = [], None
    for number, line in numbered(text):
        if not line.startswith("|"):
            before = None
            continue
        cells = [cell.strip() for cell in line.strip().removeprefix("|").removesuffix("|").split("|")]
        if before is None:
            found.append((cells, []))
        elif not set(line) <= set("|-: "):
            found[-1][1].append((number, cells))
        before = cells
    return found


def names(cell):
    """What stands in backticks."""
    return re.findall(r"`([^`]+)`", cell)


class Prose:
    """A text with its lines joined, so that a form may go over the end of a line; `line` tells where a place of it was."""

    def __init__(self, text):
        self.text, self.starts = "", []
        for number, line in numbered(text):
            self.starts.append((len(self.text), number))
            self.text += line.strip() + ("\n" if line.startswith("|") or not line.strip() else " ")

    def line(self, place):
        return max(number for start, number in self.starts if start <= place)

    def found(self, pattern):
        """Line number and match of every place where a pattern fits."""
        return [(self.line(match.start()), match) for match in re.finditer(pattern, self.text)]
