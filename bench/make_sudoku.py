#!/usr/bin/env python3
"""Makes bench/sudoku.txt: Sudoku texts of 9 by 9 with one solution each, and their answers.

Well-known puzzles are listed below, twelve of 17 clues and ten others; the rest are made here from
random boards. Each is kept only where a solver of its own finds one solution: it tries the numbers
of the cell with the fewest left, and has nothing to do with the program that is measured.

    python3 bench/make_sudoku.py
"""
import random

KNOWN = """
000000010400000000020000000000050407008000300001090000300400200050100000000806000
000000010400000000020000000000050604008000300001090000300400200050100000000807000
000000012000035000000600070700000300000400800100000000000120000080000040050000600
000000012003600000000007000410020000000500300700000600280000040000300500000000000
000000012008030000000000040120500000000004700060000000507000300000620000000100000
000000012040050000000009000070600400000100000000000050000087500601000300200000000
000000012050400000000000030700600400001000000000080000920000800000510700000003000
000000012300000060000040000900000500000001070020000000000350400001400800060000000
000000012400090000000000050070200000600000400000108000018000000000030700502000000
000000012500008000000700000600120000700000450000030000030000800000500700020000000
000000012700060000000000050080200000600000400000109000019000000000030800502000000
000000012800040000000000060090200000700000400000501000015000000000030900602000000
8..........36......7..9.2...5...7.......457.....1...3...1....68..85...1..9....4..
1....7.9..3..2...8..96..5....53..9...1..8...26....4...3......1..4......7..7...3..
..............3.85..1.2.......5.7.....4...1...9.......5......73..2.1........4...9
.......39.....1..5..3.5.8....8.9...6.7...2...1..4.......9.8..5..2....6..4..7.....
1.......2.9.4...5...6...7...5.9.3.......7.......85..4.7.....6...3...9.8...2.....1
.......12........3..23..4....18....5.6..7.8.......9.....85.....9...4.5..47...6...
........3..1..56...9..4..7......9.5.7.......8.5.4.2....8..2..9...35..1..6........
12.3....435....1....4........54..2..6...7.........8.9...31..5.......9.7.....6...8
4.....8.5.3..........7......2.....6.....8.4......1.......6.3.7.5..2.....1.4......
53..7....6..195....98....6.8...6...34..8.3..17...2...6.6....28....419..5....8..79
""".split()


def units(c):
    r, k = divmod(c, 9)
    return r, k, 3 * (r // 3) + k // 3


def solutions(givens, limit=2, rng=None):
    """Up to `limit` solutions of 81 numbers, 0 for none."""
    rows, cols, boxes = [0] * 9, [0] * 9, [0] * 9
    board = list(givens)
    for c, v in enumerate(board):
        if v:
            r, k, b = units(c)
            if (rows[r] | cols[k] | boxes[b]) >> v & 1:
                return []
            rows[r] |= 1 << v
            cols[k] |= 1 << v
            boxes[b] |= 1 << v
    found = []

    def go():
        best, left = None, None
        for c in range(81):
            if not board[c]:
                r, k, b = units(c)
                m = 1022 & ~(rows[r] | cols[k] | boxes[b])
                n = bin(m).count("1")
                if n == 0:
                    return
                if best is None or n < bin(left).count("1"):
                    best, left = c, m
                    if n == 1:
                        break
        if best is None:
            found.append(board[:])
            return
        r, k, b = units(best)
        values = [v for v in range(1, 10) if left >> v & 1]
        if rng:
            rng.shuffle(values)
        for v in values:
            board[best] = v
            rows[r] ^= 1 << v
            cols[k] ^= 1 << v
            boxes[b] ^= 1 << v
            go()
            board[best] = 0
            rows[r] ^= 1 << v
            cols[k] ^= 1 << v
            boxes[b] ^= 1 << v
            if len(found) >= limit:
                return

    go()
    return found


def made(seed, least):
    """A puzzle from a random whole board by taking away givens while one solution is left."""
    rng = random.Random(seed)
    whole = solutions([0] * 81, 1, rng)[0]
    board = whole[:]
    places = list(range(81))
    rng.shuffle(places)
    for c in places:
        if sum(1 for v in board if v) <= least:
            break
        kept, board[c] = board[c], 0
        if len(solutions(board)) != 1:
            board[c] = kept
    return board


def text(board):
    """The puzzle text: numbers, and runs of empty cells as letters `g` to `z`."""
    out, run = [], 0
    for v in list(board) + [None]:
        if v == 0:
            run += 1
            continue
        while run:
            n = min(run, 20)
            out.append(chr(ord("g") + n - 1))
            run -= n
        if v is not None:
            out.append(str(v))
    return "sudoku/9/9/" + "".join(out)


def main():
    boards = [[0 if x in ".0" else int(x) for x in line] for line in KNOWN]
    boards += [made(seed, 22 if seed % 2 else 30) for seed in range(30)]
    with open("bench/sudoku.txt", "w") as out:
        for board in boards:
            found = solutions(board)
            if len(found) != 1:
                print("left out:", len(found), "solutions:", "".join(map(str, board)))
                continue
            out.write(text(board) + " " + "".join(map(str, found[0])) + "\n")


main()
