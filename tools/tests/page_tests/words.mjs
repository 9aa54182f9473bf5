// The page's languages: node words.mjs MODULES. Prints as JSON what is wrong with the tables beside English, and with
// the names that the page's modules use.
import { readdirSync, readFileSync } from "node:fs";

const [page] = process.argv.slice(2), wrong = [];
const load = async (name) => (await import(`${page}/words/${name}.js`)).default;
const languages = readdirSync(`${page}/words`).filter((name) => name.endsWith(".js")).map((name) => name.slice(0, -3));

const formsOf = (value) => (typeof value === "string" ? [value] : Object.values(value));
const places = (text) => [...text.matchAll(/\{(\w+)\}/g)].map(([, name]) => name).sort().join();
const partsOf = (text) => text.split("|").length;

// A sentence against the English one: the same places, and the same count of parts; forms that its language has.
function compare(language, name, own, english) {
  const say = (what) => wrong.push(`${language} ${name}: ${what}`);
  const [first] = formsOf(english), known = new Intl.PluralRules(language).resolvedOptions().pluralCategories;
  if (typeof own !== "string") {
    if (!("other" in own)) say("has no other form");
    for (const form of Object.keys(own)) if (!known.includes(form)) say(`has a form ${form}`);
  }
  for (const text of formsOf(own)) {
    if (places(text) !== places(first)) say(`has the places ${places(text)}, and not ${places(first)}`);
    if (partsOf(text) !== partsOf(first)) say(`has ${partsOf(text)} parts, and not ${partsOf(first)}`);
    if (!text.trim()) say("is empty");
  }
  if (language !== "en" && formsOf(own).join() === formsOf(english).join() && /[a-z]{4,} [a-z]{4,}/.test(first)) {
    say("is English");
  }
}

const tables = {};
for (const part of ["", "later/"]) {
  const english = await load(`${part}en`);
  Object.assign(tables, english);
  for (const language of languages) {
    const own = await load(part + language);
    for (const name of Object.keys(english)) {
      if (own[name] === undefined) wrong.push(`${language} ${name}: is missing`);
      else compare(language, name, own[name], english[name]);
    }
    for (const name of Object.keys(own)) if (!(name in english)) wrong.push(`${language} ${name}: is left over`);
  }
}

// The names that the modules use. Some are made of codes: those of denials and of broken rules, and of `about..Text`.
const modules = readdirSync(page).filter((name) => name.endsWith(".js")).map((name) =>
  readFileSync(`${page}/${name}`, "utf8"));
const code = [...modules, readFileSync(`${page}/index.html`, "utf8")].join("\n");
const quoted = new Set([...code.matchAll(/["`]([A-Za-z]\w*)["`]/g)].map(([, name]) => name));
const keyed = new Set([...code.matchAll(/\b(\w+): \[-?\d, -?\d\]/g)].map(([, name]) => name));
const made = ["instant", "sealed", "open", "upheld", "rejected"]; // the hall's own words
for (const name of Object.keys(tables)) {
  const used = quoted.has(name) || keyed.has(name) || made.includes(name) || /^(denied\d+|[AUSN]\d)$/.test(name)
    || quoted.has(name.replace(/Text$/, ""));
  if (!used) wrong.push(`${name}: is used nowhere`);
}
for (const [, name] of code.matchAll(/\b(?:phrase|parts|pairs)\("(\w+)"|data-phrase="(\w+)"/g)) {
  if (name && !(name in tables)) wrong.push(`${name}: isn't there`);
}
console.log(JSON.stringify({ languages, wrong }));
