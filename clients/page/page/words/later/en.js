// The sentences of the pages that few open in a round: after it, the rules, and about.

export default {
  helpMore: "Two fingers move and zoom; while one draws, a second one moves the board. All you draw is kept in this "
    + "browser until a day after the round's end.",
  helpAll: "T|a try, R takes it back|Page Down, Page Up|the next puzzle, the one before|Ctrl + Enter|hand in",
  helpSlitherlink: "Click a side|line, cross, nothing|Other button, or ✕|cross|Drag from dot to dot|draw lines, or "
    + "erase|▦ and a click|shade a cell: inside, outside|Arrows|move over the dots|Shift + arrow|draw or erase a "
    + "line on the way|W A S D|cross above, left, below, right of the dot|I, O|the cell right below the dot is "
    + "inside, outside",
  helpNurikabe: "Click a cell|wall, dot, nothing|Other button, or •|dot|Drag|the same on more "
    + "cells|Arrows|move|Space|wall, dot, nothing|Shift + arrow|take the cell's mark along|W, D, Backspace|wall, "
    + "dot, nothing",
  helpSudoku: "Click, arrows|choose a cell|Drag, Shift or Ctrl|choose more cells|1 to 9, A to P|write a number (A "
    + "is 10)|Two digits quickly|a number above 9|Shift + number|corner notes, each by one key|Ctrl + number|centre "
    + "notes|Space|notes on or off|Q, S, W, X|numbers, corner notes, centre notes, colours|Backspace|erase|Ctrl + "
    + "A, Escape|choose all cells, one cell",

  // after the round
  lastAnswer: "your last answer",
  yourAnswer: "your answer",
  noAnswer: "No answer.",
  noneBefore: "There are none before the start.",
  protestHead: "A protest",
  protestWhat: "What is wrong, in at most {n} signs",
  protestMake: "Make the protest",
  protestEmpty: "Please say what is wrong.",
  protestSign: "“{sign}” can't be sent: please use plain letters, digits and signs alone.",
  protestLong: "These are {n} signs, and at most {most} can be sent.",
  protestLeft: "{n} left",
  protestPuzzle: "Puzzle {number} ",
  protestsLater: "Protests are taken from the end on.",
  protestsOver: "The time for protests is over.",
  noProtest: "You made no protest.",
  open: "open",
  upheld: "upheld, {points} points",
  rejected: "rejected",
  noTable: "The table isn't published yet.|A director publishes it once the time for protests is over and each "
    + "protest has its ruling.",
  print: "Print",
  rank: "Rank",
  name: "Name",
  points: "Points",

  // the rules, and about
  rulesSudoku: "Write a number into each empty cell, so that each row, each column and each box holds each number "
    + "once.",
  rulesSlitherlink: "Draw one single loop along the dotted lines, without crossings and branches. A number tells "
    + "how many of the four sides of its cell belong to the loop.",
  rulesNurikabe: "Make some cells wall. All wall is joined, and no two by two cells are all wall. Each island of "
    + "other cells holds one number, which tells how many cells it has. Cells that touch at a corner aren't joined.",
  rulesMore: "Each puzzle has exactly one solution.",
  aboutProved: "What is proved, and what isn't",
  aboutProvedText: "The hall judges the answers. It is a program that was proved: a verdict is right exactly where "
    + "the answer breaks no rule, and an answer that it took stays. This page isn't proved. It was tried in "
    + "browsers. It shows the puzzles, writes your answers and sends them; what counts is what the hall received, "
    + "and that stands under My answers as the hall tells it.",
  aboutKept: "What is kept where",
  aboutKeptText: "Your key is kept in this tab alone, until you leave or close it. What you draw, the round's "
    + "puzzles, and answers on their way are kept in this browser until a day after the round's end. Whoever uses "
    + "this browser with your key sees them.",
  aboutLine: "Where the connection fails",
  aboutLineText: "Draw on. An answer that you hand in is kept, and goes again until the hall replies; the hall "
    + "takes it once. Only the moment at which it reaches the hall counts.",
  aboutPage: "Where the page fails",
  aboutPageText: "Load it anew: what you drew stays, unless the page says that this browser keeps nothing more. If "
    + "that doesn't help, take another browser or machine, with your key; there you begin with an empty board, but "
    + "all that the hall received stands. Else call a director.",

  // pictures in words
  tellSlitherlink: "Lines across, row by row: {across}. Upright: {upright}.",
  tellRow: "Row {row}: {cells}.",
  pictureName: "{words}. {kind}, {cols} by {rows}. {told}",
  white: "white",
  none: "none",
};
