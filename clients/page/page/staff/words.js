// The hall's codes in sentences for staff, with what to do. tools/tests/test_page.py compares the codes with
// docs/HTTP.md.

export const DENIED = {
  1: ["The hall doesn't know this key.", "Compare it with your slip, letter by letter; or ask whoever runs the hall."],
  2: ["Your roles don't allow this.", "Ask a director which roles your name has."],
  3: ["This author isn't you.", "Write your own name as it stands on your slip; a director may write any author's."],
  4: ["What this names isn't there.", "See the spelling: an author with that role, a puzzle, a round, a protest."],
  5: ["You are an author or a tester of this round.", "So you don't take part in it."],
  7: ["The round hasn't begun.", "Before its start a director and its testers alone may read it."],
  9: ["It is too early for this.", "Solutions are told from the end on, and a table is published from the close on."],
  11: ["The puzzle stands in a released round.", "There it stays as it is: put another one under another label."],
  12: ["A puzzle of the round isn't in the state one.", "Have its solutions counted first."],
  13: ["The round is released.", "It stays as it is: a new draft needs another id."],
  14: ["The start has come already.", "Put the draft again with a later start."],
  15: ["The round is published already.", "Nothing of it changes any more."],
  16: ["A protest of the round is open.", "A referee rules on it first."],
  17: ["You have an answer in this round, or made the protest.", "Another referee rules on it."],
  18: ["This protest was ruled before, in another way.", "A ruling stays as it is."],
  19: ["That was the last one allowed.", "The hall keeps 500 puzzles of an author: use one of their labels again."],
};

// What is wrong with a puzzle's text, by the hall's codes.
export const TEXT_FAULTS = {
  E2: "It begins with no kind of puzzle: sudoku, slither or nurikabe.",
  E3: "A side is missing, or isn't one or two digits.",
  E4: "The size is out of the limits: Sudoku has the sides 4, 6, 9, 16 and 25, the others at most 50 by 50 and "
    + "1,000 cells.",
  E5: "This sign begins no clue.",
  E6: "Here a - or + has too few digits behind it.",
  E7: "This number is out of range.",
  E8: "There is more behind the last cell.",
};

export const MODES = { instant: "each verdict at once", sealed: "verdicts after the end" };

const FIELDS = "The hall takes another value here.";

// What a reply that isn't ok says, as [sentence, what to do].
export function refusal({ denied, form, field }) {
  if (denied) return DENIED[denied] ?? [`The hall refused this (rule ${denied}).`, "docs/HTTP.md tells of it."];
  if (TEXT_FAULTS[form]) return ["The hall doesn't read this as a puzzle.", TEXT_FAULTS[form]];
  return [`The hall didn't understand this (${[form, field].filter(Boolean).join(", ")}).`, field ? FIELDS : ""];
}

// What the state of a puzzle means, and what to do.
export const STATES = {
  new: ["not searched yet", "Nobody has had its solutions counted."],
  one: ["one solution", "There is exactly one solution: the puzzle may stand in a round."],
  none: ["no solution", "A clue contradicts another: mend the puzzle and put it again under this label."],
  more: ["several solutions", "There is more than one: add a clue, and put it again under this label. The hall "
    + "doesn't show two of them; look for a place that can be turned round."],
  "gave up": ["undecided", "The search came to no end within its budget, which says nothing of the puzzle. Try it at "
    + "home with the greatest budget; if that gives up too, add clues."],
};
