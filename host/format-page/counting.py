"""Counts the cases that passed and failed."""

MOST_PRINTED = 40


class Tally:
    """What was counted so far."""

    passed = 0
    failed = 0


def failure(*what):
    """Counts one case that failed, and prints it unless many were printed."""
    Tally.failed += 1
    if Tally.failed <= MOST_PRINTED:
        print("  failed:", *what)


def expect(right, *what):
    """Counts one case."""
    if right:
        Tally.passed += 1
    else:
        failure(*what)


class Together:
    """Many checks that count as one case: `with Together(name) as each: each(right, what)`."""

    def __init__(self, *name):
        self.name, self.wrong, self.done = name, [], 0

    def __enter__(self):
        return self

    def __call__(self, right, *what):
        self.done += 1
        if not right:
            self.wrong.append(what)

    def __exit__(self, error, *_):
        if error is None:
            expect(self.done > 0 and not self.wrong, *self.name, *(self.wrong[0] if self.wrong else ["nothing checked"]))
