// The same traces through Yjs: yjs.js edit FILE < SCRIPT, text FILE, take FILE < UPDATE, diff FILE OTHER. FILE holds the document as one
// update of Yjs, which has the whole history, so it is also what is sent to whoever has nothing. `diff` prints what OTHER lacks of FILE.
'use strict'
const fs = require('fs')
const Y = require('yjs')

const [, , command, file, other] = process.argv
const doc = new Y.Doc()
if (fs.existsSync(file)) Y.applyUpdate(doc, fs.readFileSync(file))
const text = doc.getText('text')
const meant = { n: '\n', r: '\r', '\\': '\\' }

if (command === 'edit') {
  for (const line of fs.readFileSync(0, 'utf8').split('\n')) {
    const [, kind, at, rest] = /^([id]) (\d+) (.*)$/.exec(line) || []
    if (kind === 'i') text.insert(+at, rest.replace(/\\(.)/g, (_, c) => meant[c]))
    if (kind === 'd') text.delete(+at, +rest)
  }
}
if (command === 'take') Y.applyUpdate(doc, fs.readFileSync(0))
if (command === 'text') process.stdout.write(text.toString())
else if (command === 'diff') process.stdout.write(Y.encodeStateAsUpdate(doc, Y.encodeStateVectorFromUpdate(fs.readFileSync(other))))
else fs.writeFileSync(file, Y.encodeStateAsUpdate(doc))
