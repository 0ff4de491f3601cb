// A client of `rls`: a replica by one session, and messages through a shared folder. README.md shows a program.
export { Refused, RlsError, Stale, UsedTwice } from './errors.js';
export { crossed, placeAfter } from './changes.js';
export { compared } from './compare.js';
export { applied, Text } from './text.js';
export { Session } from './session.js';
export { Mailbox } from './mailbox.js';
