"""Puzzle texts as in puzz.link's addresses."""


def runs(symbols, first):
    """The symbols, with each run of up to twenty that are None as one letter from the first on."""
    out, run = [], 0
    for symbol in [*symbols, ""]:
        if symbol is None:
            run += 1
            continue
        while run:
            some = min(run, 20)
            out.append(chr(ord(first) + some - 1))
            run -= some
        out.append(symbol)
    return "".join(out)


def number(n):
    """A number in the form that has room for 255."""
    return format(n, "x") if n < 16 else "-" + format(n, "02x")


def numbers(body, first):
    """The symbols of a body of such numbers: None for a cell without one, `?` for a point."""
    symbols, at = [], 0
    while at < len(body):
        if body[at] >= first:
            symbols += [None] * (ord(body[at]) - ord(first) + 1)
        elif body[at] == ".":
            symbols.append("?")
        elif body[at] == "-":
            symbols.append(int(body[at + 1 : at + 3], 16))
            at += 2
        else:
            symbols.append(int(body[at], 16))
        at += 1
    return symbols


def sides(body):
    """The numbers from 0 to 4 of a Slitherlink body; one symbol may have one or two empty cells after it."""
    symbols = []
    for sign in body:
        if sign >= "g":
            symbols += [None] * (ord(sign) - ord("f"))
        else:
            value = int(sign, 16)
            symbols += [value % 5] + [None] * (value // 5)
    return symbols
