"""Parts a program's code, as clang writes it in text, into modules of about the same size, which clang can compile side
by side.

A walk from `main` that follows calls sets the order, and parts are runs of it, so that most of what calls each other
stays together. What nothing reaches is left out. A small function is copied into each part that needs it, where it can
be inlined; a large one is in one part, and seen by the others.
"""
import re

# A name as it stands in the code.
NAME = re.compile(rb'@("[^"\n]+"|[\w.$-]+)')
MAIN = b"main"
# A function of so many lines is small.
SMALL = 20
# What else than functions each part can have a copy of: constants that no other module sees, types, declarations and
# the like.
COMMON = re.compile(
    rb"@\S+ = private (?:unnamed_addr )?constant |%\S+ = type |declare |attributes |![\w.]+ = |target |source_filename|"
    rb";|$"
)


class Unknown(Exception):
    """The code is written in a way that isn't foreseen here."""


class Program:
    """A module's functions by name, and all else that it has."""

    def __init__(self, text):
        first, *functions = re.split(rb"^(?=define )", text, flags=re.M)
        common, self.functions = [first], {}
        for it in functions:
            end = it.find(b"\n}\n") + 3
            self.functions[NAME.search(it)[1]] = it[:end]
            common.append(it[end:])
        self.common = b"".join(common)
        seen = [name for name, it in self.functions.items() if not it.startswith(b"define internal ")]
        strange = [it for it in self.common.split(b"\n") if not COMMON.match(it)]
        if seen != [MAIN] or strange:
            raise Unknown(b"\n".join([*seen, *strange])[:500].decode(errors="replace"))
        self.uses = {name: self.named_in(it) - {name} for name, it in self.functions.items()}
        self.used_by_all = self.named_in(self.common)

    def named_in(self, text):
        return {it for it in NAME.findall(text) if it in self.functions}

    def is_small(self, name):
        return name != MAIN and self.functions[name].count(b"\n") <= SMALL

    def reached(self):
        """The functions that the program can reach, in the order of a walk from `main`."""
        order, left = {}, [*sorted(self.used_by_all), MAIN]
        while left:
            name = left.pop()
            if name not in order:
                order[name] = True
                left += sorted((it for it in self.uses[name] if it not in order), reverse=True)
        return list(order)

    def own_of_parts(self, number):
        """The functions that each part is made for."""
        order = self.reached()
        size, before, own = sum(len(self.functions[it]) for it in order), 0, [[] for _ in range(number)]
        for name in order:
            own[before * number // size].append(name)
            before += len(self.functions[name])
        return own

    def needs(self, own):
        """What a part with these functions needs beside them: small ones to copy, and large ones to see."""
        copied, seen, left = set(), set(), [self.used_by_all, *(self.uses[it] for it in own)]
        own = set(own)
        while left:
            for name in left.pop() - own - copied - seen:
                if self.is_small(name):
                    copied.add(name)
                    left.append(self.uses[name])
                else:
                    seen.add(name)
        return copied, seen


def opened(function):
    """A function's text where other parts see it."""
    return function.replace(b"define internal ", b"define hidden ", 1)


def declared(function):
    """The declaration of a function that another part has."""
    head = function[: function.index(b"\n")].removesuffix(b"{")
    return head.replace(b"define internal ", b"declare hidden ", 1) + b"\n"


def parts_of(text, number):
    """The texts of the modules that make the same program. It raises Unknown."""
    program = Program(text)
    owns = program.own_of_parts(number)
    needs = [program.needs(own) for own in owns]
    shared = set().union(*(seen for _, seen in needs))
    for own, (copied, seen) in zip(owns, needs):
        made = [opened(program.functions[it]) if it in shared else program.functions[it] for it in own]
        made += [program.functions[it] for it in sorted(copied)]
        made += [declared(program.functions[it]) for it in sorted(seen)]
        yield program.common + b"\n".join(made)
