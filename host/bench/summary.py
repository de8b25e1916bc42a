"""What the lines of a bench come to: groups of calls, their means and their worst lines."""
from collections import namedtuple

from results import Unfit, geometric_mean

Group = namedtuple("Group", "name calls bounded")

GROUPS = [
    Group("reading", ["check", "expand", "opened rank", "opened position", "opened cell"], True),
    Group("writing", ["make", "write", "change"], True),
    Group("box", ["box"], False),
]
MEAN_BOUND = 2
LINE_BOUND = 4


def group_of(call):
    """The group of a call as the bench names it, such as `change to 2` or `box 64x64`."""
    for group in GROUPS:
        if any(call == name or call.startswith(name + " ") for name in group.calls):
            return group
    raise Unfit(f"the call {call!r} is in no group")


def in_group(lines, group):
    """The lines of a group."""
    return [line for line in lines if group_of(line.call) == group]


def mean(lines):
    """The geometric mean of the lines' ratios."""
    return geometric_mean(line.ratio for line in lines)


def worst(lines, count):
    """The lines with the largest ratios, the largest first."""
    return sorted(lines, key=lambda line: -line.ratio)[:count]


def over(lines):
    """The number of lines over the bound of a line."""
    return sum(line.ratio > LINE_BOUND for line in lines)


def holds(lines):
    """Whether both bounds hold for the lines of a group."""
    return mean(lines) <= MEAN_BOUND and over(lines) == 0


def values(lines, name):
    """The values of a field, each once, in the order of the lines."""
    return list(dict.fromkeys(getattr(line, name) for line in lines))
