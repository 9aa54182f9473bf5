"""What a test finds out step by step: each thing that isn't as wanted is told, and the test fails at its end."""
import shutil
import time

# A value is told up to so many letters.
LONG = 2_000


class Found:
    """What was found since a test began: how often it was looked, what is wrong, and what else is to be told."""

    def __init__(self):
        self.looked, self.wrong, self.told = 0, [], []


found = Found()


def begin():
    """Begins anew, and returns what was found before."""
    global found
    before, found = found, Found()
    return before


def short(text):
    return text if len(text) <= LONG else f"{text[:LONG]}.. of {len(text)} letters"


def check(name, got, want):
    """Sees that something is as wanted."""
    found.looked += 1
    if got != want:
        found.wrong.append(f"{name}: got {short(repr(got))}, wanted {short(repr(want))}")


def must_be(name, got, want):
    """Ends the test where something isn't as wanted, without which the rest says nothing."""
    found.looked += 1
    if got != want:
        raise AssertionError(f"{name}: got {short(repr(got))}, wanted {short(repr(want))}")


def need(*commands):
    """Skips the test where one of these commands isn't there."""
    lacking = next((it for it in commands if not shutil.which(it)), None)
    if lacking:
        # What measures has no need of pytest.
        import pytest
        pytest.skip(f"{lacking} isn't there")


def holds(name, is_right, *seen):
    """Sees that something is so."""
    found.looked += 1
    if not is_right:
        found.wrong.append(" ".join([f"{name}:", *(short(str(it)) for it in seen)]) if seen else name)


def tell(line):
    """Has a line told at the end, however the test ends."""
    found.told.append(line)


class Ways:
    """How often a changed call ended in which way, and the calls that went wrong."""

    def __init__(self, what):
        self.what, self.began, self.ways = what, time.time(), {}

    def add(self, way, *of):
        """Counts a way; where there is none, it went wrong."""
        self.ways[way or "wrong"] = self.ways.get(way or "wrong", 0) + 1
        holds(self.what, way, *of)

    def end(self):
        """Tells how it went, and sees that something was asked at all."""
        ways = ", ".join(f"{count} {way}" for way, count in sorted(self.ways.items()))
        count = sum(self.ways.values())
        tell(f"{self.what}: {count} asked, {ways}, in {time.time() - self.began:.0f} s")
        holds(f"{self.what}: nothing was asked", count)
