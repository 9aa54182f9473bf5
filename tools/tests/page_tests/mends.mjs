// What staff's page mends of a text, and where it sees a fault: node mends.mjs PAGE < TEXTS, a JSON list of texts. It
// writes a list of [text, notes, fault], of what is mended, and the fault of the text as it was.
import { readFileSync } from "node:fs";
import { pathToFileURL } from "node:url";

const { faultIn, mended } = await import(pathToFileURL(process.argv[2]));
const texts = JSON.parse(readFileSync(0, "utf8"));
console.log(JSON.stringify(texts.map((given) => {
  const { text, notes } = mended(given), fault = faultIn(given);
  return [text, notes, fault && [fault.form, fault.at ?? null]];
})));
