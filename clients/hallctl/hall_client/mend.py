"""Addresses of puzzles as a browser shows them, made into texts that the hall reads. What was mended is told, since a
puzzle that means another rule must not slip in unseen; whether the text is a puzzle is the hall's to say."""
import re
import urllib.parse

KINDS = {"slitherlink": "slither", "slitherlinks": "slither", "nuri": "nurikabe", "numberplace": "sudoku"}
# The sides of a Sudoku whose numbers are all digits, by its cells.
SIDES = {16: 4, 36: 6, 81: 9}


def without_wrapping(text):
    stripped = text.strip().strip("<>\"'").strip()
    return stripped, "spaces or marks round the address were taken off" if stripped != text else None


def of_signs(text):
    """The text of a Sudoku that is written as a sign for each cell: its digit, a dot or a zero where it is empty."""
    signs = re.sub(r"\s", "", text)
    side = SIDES.get(len(signs), 0)
    if not re.fullmatch(f"[.0-{side}]+", signs):
        return text, None
    runs = re.findall("[.0]{1,20}|[1-9]", signs)
    body = "".join(it if it in "123456789" else chr(ord("f") + len(it)) for it in runs)
    return f"sudoku/{side}/{side}/{body}", f"{len(signs)} signs were read as a Sudoku of {side} by {side}"


def decoded(text):
    found = urllib.parse.unquote(text)
    return found, "%-signs were decoded" if found != text else None


def without_address(text):
    """What stands behind the question mark, if anything does."""
    address, mark, rest = text.partition("?")
    if not mark:
        return text, None
    is_plain = re.match(r"https?://", address)
    return rest, None if is_plain else f"the address {address} in front of the puzzle was taken off"


def without_tail(text):
    found = re.split(r"[&#]", text, maxsplit=1)
    return found[0], f"{text[len(found[0]):]} behind the puzzle was taken off" if len(found) > 1 else None


def with_kind(text):
    word, slash, rest = text.partition("/")
    plain = re.sub(r"_(edit|play)$", "", word.lower())
    kind = KINDS.get(plain, plain)
    return kind + slash + rest, f"the word {word} was read as {kind}" if kind != word else None


def without_flags(text):
    """Without segments that are flags, as `v:`: they stand between the word and the sides."""
    kind, *rest = text.split("/")
    flags = []
    while rest and re.fullmatch(r"[a-z][a-z:]*", rest[0]):
        flags.append(rest.pop(0))
    told = "was taken out: the hall knows the plain rules alone, so see that they are meant"
    return "/".join([kind, *rest]), f"the flag {', '.join(flags)} {told}" if flags else None


def without_ends(text):
    found = text.rstrip("/ ")
    # One final slash is read by the hall itself.
    return found, "more than one final slash was taken off" if len(text) - len(found) > 1 else None


STEPS = (without_wrapping, of_signs, decoded, without_address, without_tail, with_kind, without_flags, without_ends)


def mended(text):
    """The text, and what was mended, a sentence each."""
    notes = []
    for step in STEPS:
        text, told = step(text)
        notes += [told] if told else []
    return text, notes
