// Makes the text of the replica in a folder that of a file, by the client in Node: set-text.mjs FOLDER FILE.
import fs from 'node:fs';
import { Session } from '../node/rls.js';

const session = await Session.open(process.argv[2]);
const { isCut } = await session.setText(fs.readFileSync(process.argv[3], 'utf8'));
if (isCut) console.error('parts were compared by cheaper means');
await session.close();
