// Prints for each case of cases.json, as one line of JSON, the replacements of the client in Node, in characters.
import fs from 'node:fs';
import { compared } from '../node/compare.js';

const size = (text) => [...text].length;
for (const { old, new: now } of JSON.parse(fs.readFileSync(new URL('cases.json', import.meta.url)))) {
  console.log(JSON.stringify(compared(old, now).found.map(({ at, count, text }) => [size(old.slice(0, at)), size(old.slice(at, at + count)), text])));
}
