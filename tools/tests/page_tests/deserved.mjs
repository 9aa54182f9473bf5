// The verdict that a drawing deserves, reckoned from what is drawn by the rules in words: the names of the broken
// ones, in their order.

const BOXES = { 4: [2, 2], 6: [3, 2], 9: [3, 3], 16: [4, 4], 25: [5, 5] };

// Whether one walk reaches the whole set; `next` gives the neighbours of a member.
function isJoined(set, next) {
  const seen = new Set([...set].slice(0, 1)), todo = [...seen];
  while (todo.length) {
    for (const member of next(todo.pop())) {
      if (!set.has(member) || seen.has(member)) continue;
      seen.add(member);
      todo.push(member);
    }
  }
  return seen.size === set.size;
}

const broken = (rules) => Object.keys(rules).filter((name) => rules[name]);

function sudoku({ cols, clues }, marks) {
  const values = marks.map((mark) => mark % 32), [wide, high] = BOXES[cols], cells = [...clues.keys()];
  if (values.includes(0)) return ["A0"];
  const row = (cell) => Math.floor(cell / cols), col = (cell) => cell % cols;
  const box = (cell) => `${Math.floor(row(cell) / high)},${Math.floor(col(cell) / wide)}`;
  const repeats = (group) => new Set(cells.map((cell) => `${group(cell)}:${values[cell]}`)).size < cells.length;
  return broken({ U1: repeats(row), U2: repeats(col), U3: repeats(box),
    U4: cells.some((cell) => clues[cell] !== null && clues[cell] !== values[cell]) });
}

function slither({ cols, rows, clues }, marks) {
  const across = (rows + 1) * cols, dots = new Map();
  const link = (from, to) => dots.set(from, [...(dots.get(from) ?? []), to]);
  marks.forEach((mark, place) => {
    if (mark !== 1) return;
    const flat = place < across, i = flat ? place : place - across, wide = flat ? cols : cols + 1;
    const from = Math.floor(i / wide) * (cols + 1) + i % wide, to = flat ? from + 1 : from + cols + 1;
    link(from, to);
    link(to, from);
  });
  const degrees = [...dots.values()].map((list) => list.length);
  const round = (cell) => {
    const left = across + Math.floor(cell / cols) * (cols + 1) + cell % cols;
    return [cell, cell + cols, left, left + 1].filter((place) => marks[place] === 1).length;
  };
  return broken({ S1: !dots.size, S2: degrees.includes(1), S3: degrees.some((degree) => degree > 2),
    S4: clues.some((clue, cell) => Number.isInteger(clue) && clue !== round(cell)),
    S5: !isJoined(new Set(dots.keys()), (dot) => dots.get(dot)) });
}

function islandsOf(whites, near) {
  const left = new Set(whites), islands = [];
  while (left.size) {
    const [first] = left, island = [first];
    left.delete(first);
    for (let k = 0; k < island.length; k++) island.push(...near(island[k]).filter((cell) => left.delete(cell)));
    islands.push(island);
  }
  return islands;
}

function nurikabe({ cols, clues }, marks) {
  const isWall = (cell) => marks[cell] === 1, cells = [...clues.keys()];
  const beside = (cell) => [cell % cols ? cell - 1 : -1, cell % cols < cols - 1 ? cell + 1 : -1];
  const near = (cell) => [...beside(cell), cell - cols, cell + cols].filter((other) => clues[other] !== undefined);
  const isPool = (cell) => cell % cols < cols - 1 && cell + cols < clues.length
    && [cell, cell + 1, cell + cols, cell + cols + 1].every(isWall);
  const numbers = islandsOf(cells.filter((cell) => !isWall(cell)), near)
    .map((island) => [island.length, island.map((cell) => clues[cell]).filter((clue) => clue !== null)]);
  return broken({ N1: cells.some((cell) => clues[cell] !== null && isWall(cell)), N2: cells.some(isPool),
    N3: !isJoined(new Set(cells.filter(isWall)), near),
    N4: numbers.some(([, clued]) => clued.length === 0), N5: numbers.some(([, clued]) => clued.length > 1),
    N6: numbers.some(([size, clued]) => clued.some((clue) => clue !== "?" && clue !== size)) });
}

export const deserved = (puzzle, marks) => ({ sudoku, slither, nurikabe })[puzzle.kind](puzzle, marks);
