// What follows from the answers and protests of a round: how often each entrant answered each puzzle, and the table
// that the hall will publish, by the rules of points of docs/USING.md. It is reckoned here and is not the hall's word.

const isRight = ({ verdict }) => verdict === "right";
const byName = (a, b) => (a < b ? -1 : a > b ? 1 : 0);

function grouped(list, keyOf) {
  const groups = new Map();
  for (const it of list) groups.set(keyOf(it), [...groups.get(keyOf(it)) ?? [], it]);
  return groups;
}

// By entrant, and then by number: how many were right and wrong, and the moments of the first and the last.
export function tallies(answers) {
  const rows = [...grouped(answers, ({ entrant }) => entrant)].sort(([a], [b]) => byName(a, b));
  return new Map(rows.map(([entrant, own]) => [entrant, new Map([...grouped(own, ({ number }) => number)]
    .map(([number, list]) => {
      const moments = list.map(({ moment }) => moment), right = list.filter(isRight).length;
      return [number, { right, wrong: list.length - right, first: Math.min(...moments), last: Math.max(...moments) }];
    }))]));
}

// The answer to a puzzle that counts, if it is right, and its points: in an instant round the first right one, less
// the penalty for each wrong one before it; in a sealed round the last one.
function counted(list, points, { mode, penalty }) {
  const inOrder = [...list].sort((a, b) => a.n - b.n);
  const at = mode === "instant" ? inOrder.findIndex(isRight) : inOrder.length - 1;
  if (at < 0 || !isRight(inOrder[at])) return null;
  return { moment: inOrder[at].moment, points: Math.max(0, points - (mode === "instant" ? at * penalty : 0)) };
}

function totalOf(own, sheet, end) {
  const byNumber = grouped(own, ({ number }) => number);
  const found = sheet.puzzles.map(({ number, points }) => counted(byNumber.get(number) ?? [], points, sheet));
  const sum = found.reduce((total, it) => total + (it?.points ?? 0), 0);
  if (found.some((it) => !it)) return sum;
  return sum + sheet.bonus * Math.floor((end - Math.max(...found.map(({ moment }) => moment))) / 60);
}

// The table: lines of [rank, entrant, total].
export function tableOf(sheet, answers, protests) {
  const end = sheet.start + 60 * sheet.minutes;
  const more = (who) => protests.filter(({ entrant, ruling }) => entrant === who && ruling === "upheld")
    .reduce((sum, { points }) => sum + points, 0);
  const totals = [...grouped(answers, ({ entrant }) => entrant)]
    .map(([entrant, own]) => [entrant, totalOf(own, sheet, end) + more(entrant)])
    .sort((a, b) => b[1] - a[1] || byName(a[0], b[0]));
  return totals.map(([entrant, total]) => [1 + totals.filter(([, other]) => other > total).length, entrant, total]);
}
