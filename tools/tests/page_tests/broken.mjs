// What the eye sees of answers: node broken.mjs PAGE < PAIRS, a JSON list of [puzzle, answer]. It writes for each the
// names of the rules that staff/broken.js sees broken, and how many places are marked of each.
import { readFileSync } from "node:fs";
import { pathToFileURL } from "node:url";

const from = (name) => import(pathToFileURL(`${process.argv[2]}/page/${name}`));
const { brokenIn } = await from("staff/broken.js"), { readAnswer, readPuzzle } = await from("texts.js");
console.log(JSON.stringify(JSON.parse(readFileSync(0, "utf8")).map(([text, answer]) => {
  const puzzle = readPuzzle(text);
  return brokenIn(puzzle, readAnswer(puzzle, answer))
    .map(({ rule, cells, sides, dots, all }) => [rule, cells.length + sides.length + dots.length + Number(all)]);
})));
