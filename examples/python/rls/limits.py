"""Numbers that the other modules look at when they need them, so a program may set others."""
import os

PROGRAM = os.environ.get("RLS", "rls")
RENAME_AT = int(os.environ.get("RLS_RENAME_AT", "500"))     # runs of identifiers from which a rename is due; 0 for never
RUN_BYTES = 64                       # so many bytes of a rename's operation count as a run
PLAIN_BYTES = 200                    # an own operation may have so many beside its text, and 4 for each member; more than that was spent
LATEST = 4                           # a rename is due in any case from one part in so many of the greatest operation on
MOST_CHARACTERS = 1_048_576          # of one insertion
MOST_DELETED = 4_194_304             # of one deletion
MOST_INPUT = 67_108_864              # of one command, and of what one session reads before it stores
MAY_BE_CUT = 50_331_648              # from so many bytes on a message may have been cut off: one operation more could be too much
NEARLY_FULL = 241_591_911           # nine tenths of what a stored file may have: from there on a user is told, once
MOST_KEPT = 4_194_304                # so many bytes for one member, of whom nothing came for so many seconds, and a user is told, once
MOST_SILENT = 7 * 86_400
MOST_WAIT = 30.0                     # seconds that a call which stores waits for another program in the same folder
REST, MOST_REST = 1.0, 3.0           # seconds from the last change that was typed to a store, and at most from the first one
HOLD = 3.0                           # the same, if the last change took something away: what is put in its place comes then
