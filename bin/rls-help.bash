# Commands that need no program, and what `rls help` and `rls help COMMAND` print: bin/rls reads this for them.
# shellcheck shell=bash
# bin/rls sets `top` and `say`.
# shellcheck disable=SC2154

# Performs these words if they need no program, and ends the script then.
need_nothing() {
  case "${1-} ${2-} $#" in
    -h\ * | --help\ * | help\ *) help "${2-}" ;;
    *\ -h\ * | *\ --help\ *) help "$1" ;;
    -V\ * | --version\ * | version\ *) . "$top/bin/rls-choose.bash"; version ;;
    'head  1') . "$top/bin/rls-heads.bash"; print_head ;;
    *) return 0 ;;
  esac
  exit
}

# help [COMMAND]: one screen that names every command, or what there is to know of one.
help() {
  local line at='' shown=''
  if [ -z "${1-}" ]; then
    overview
    return
  fi
  while IFS= read -r line; do
    case $line in
      '= '*) at=${line#= } ;;
      *) [[ " $at " != *" $1 "* ]] || { printf '%s\n' "$line"; shown=1; } ;;
    esac
  done < <(parts)
  [ -n "$shown" ] || {
    say "there is no command \`$1\`."
    overview
    return 1
  }
}

overview() {
  cat <<'TEXT'
rls: one text that several people write, each with a copy of their own.

  share SHARED [FILE]   share a text through a folder that others see too
  join SHARED [FOLDER]  take part: get a number, and the texts as files
  sync [--watch]        take what came, send what was saved in the files
  who, where, drop      who takes part; where it is kept; exchange no longer
  give NUMBER, part     let another member give the numbers; leave for ever

  new GROUP ME MEMBERS  by hand: begin a replica in the current folder
  edit < SCRIPT         edit it, one edit a line; or: edit --text FILE
  text                  print the text
  send TO > MESSAGE     make the message for a member
  take < MESSAGE        take one
  stat, check, head     numbers; are two copies equal; whose message is it
  leave, retire N       end this member's part for ever; that of a number
  restart, ids, trial   a new group with this text; identifiers; a game
  session               answer an editor's requests, one a line
  build, --version      build the program; which one runs

`rls help COMMAND` says more of one, `rls help status` what a status means.
Two rules: a number is used in one folder and never again, and the files of a
replica are never put back from a copy. Keep the text as a backup.
TEXT
}

# A line with = names the commands that what follows it is about.
parts() {
  cat <<'TEXT'
= share
rls share SHARED [FILE|FOLDER ...]
Shares texts through the folder SHARED, which a synchroniser, a network drive
or a stick brings to others. FILE stays a plain file that any editor may
change; of FOLDER each note is a text, also later ones, and of the folders in
it. In a folder in which somebody shares already it adds texts.
rls share SHARED --again [--members N]
Begins a new circle in the same folder, if all numbers are given or the machine
that gives them is lost. The others go over at their next `rls sync`, once this
machine has seen them. docs/SHARING.md
= join
rls join SHARED [FOLDER] [--wait SECONDS]
Takes part in what is shared in SHARED: asks for a number and waits for it (60
seconds; 75 if none has come: whoever began has to run `rls sync`). The texts
become files in FOLDER. docs/SHARING.md
= sync
rls sync [SHARED|FILE] [--wait SECONDS] [--watch] [--mine FILE]
Takes what came into the files, and sends what was changed in them, once or,
with --watch, again and again. --mine FILE: a file that lost much, or was
saved from an old state, is meant as it is. docs/SHARING.md
= who
rls who [SHARED]
Prints who has which number, was last seen when, and has what.
= where
rls where [SHARED|FILE]
Prints the replica, the shared folder, the name and the file of each text, for
plugins.
= drop
rls drop FILE
Exchanges this text no longer. The files stay where they are.
= part
rls part [SHARED]
This machine leaves for ever: it exchanges once more, and then nothing is kept
for its number any more. The files stay where they are. docs/SHARING.md
= give
rls give NUMBER [SHARED]
From now on that member gives the numbers, once its machine has synced; this
one never does again. docs/SHARING.md
= new
rls new GROUP ME MEMBERS
Begins a replica in the current folder. GROUP is a number that names the text,
the same for all members; ME is your own number, from 0, which nobody else
has; MEMBERS, 1 to 64, is how many members there may ever be.
= edit
rls edit < SCRIPT
Performs a script: one edit a line, all of it or nothing. `i POS TEXT` inserts,
`d POS COUNT` deletes, `b POS` deletes the character before POS, `r` renames.
POS counts characters from 0; in TEXT write \n for a line feed, \r, and \\ for
a backslash.
rls edit --text FILE
Makes the edits after which the text is that of FILE.
= text
rls text
Prints the text, and no line feed after it.
= send
rls send TO > MESSAGE
Writes the message for member TO. A later one holds all that an earlier one
held and TO doesn't have yet. It changes nothing.
rls send TO --told FILE > MESSAGE
The same, without what the head of FILE, a message of TO, says that TO has, and
without what TO made. Two members who have more for each other than one message
holds get on by it. It stores the replica's file, like a session.
= take
rls take < MESSAGE
Takes a message, and counts what was applied (new), released (had waited),
repeated (known), held (waits) and refused.
= head
rls head < MESSAGE
Prints whose message it is: group, members, sender, and how many operations of
each member its sender has. It needs no replica.
= stat
rls stat
Prints the numbers of this replica, one a line: operations of each member,
characters, runs, what waits.
= check
rls check [FILE]
Prints what two members compare to see that they have the same: operations of
each, and sums of identifiers and text; with FILE, in which another one's
lines are, it compares them (72 if they differ).
= ids
rls ids
Prints the identifiers of the text as one line of JSON.
= session
rls session
Answers the requests of an editor, one a line, and stores when it says so and
at the end. docs/SESSION.md
= leave
rls leave
Ends this member's part for ever: it can't edit any more.
= retire
rls retire N
Ends the part of number N, which nobody has used, for ever: then nothing is
kept for it any more.
= restart
rls restart GROUP ME MEMBERS [FOLDER]
Begins a new text with the text of this replica, in a new folder: the way out
if operations wait for ever, or a file is full.
= trial
rls trial SEED STEPS
Plays an exchange of three members without files, which SEED decides, and
prints a summary.
= build
rls build
Proves and builds the program from the sources of the checkout, if that isn't
done yet; until then the commands run the released program.
= help
rls help [COMMAND]
Names every command, or says what there is to know of one.
= version --version
rls --version
Prints version and commit of the program that runs, and whether it is the
released one or was built here.
= status
Status: 0 done; 1 wrong words; 2 no replica here (for `new`: there is one);
3 the stored file is damaged; 4 a number, a script or a message isn't right;
5 done, but operations were refused; 6 an edit was refused; 7, 8, 9 the stored
file, the input or the output failed; 10 out of memory; 11 too large; 70 there
is no program to run; 71 refused by the launcher, which says why; 72 the two
copies aren't equal; 73 another program holds the folder; 75 no number has
come yet. docs/USE.md, "When something goes wrong"
TEXT
}
