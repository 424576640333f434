# What people are told: the list of commands, and what 'help NAME' says of each. The command conepalhui reads this file.

# One line for each command: NAME|ARGUMENTS|SUMMARY. A command NAME has a function do_NAME, which does it,
# and a function about_NAME, which prints what 'help NAME' says of it.
commands=(
    'check|[PLAN] [--all]|check a plan whole: accepted, or the first violated place, or all'
    'explain|PLAN [CURSOR, or LEG PLACE]|say why a place is violated, by how much, and what would mend it'
    'slack|[PLAN]|say where an accepted plan is thin: how many ns are left'
    'start|PLAN CURSOR [--anew]|start a check in slices: CURSOR keeps how far it is'
    'slice|PLAN CURSOR BUDGET|look at the next BUDGET places'
    'move|PLAN CURSOR LEG OFFSET [PERIODS]|give one leg another offset, in ns, and period word'
    'recheck|PLAN CURSOR LEG [OFFSET [PERIODS]]|move one leg of an accepted plan, and look at what that changes'
    'run|PLAN CURSOR --budget N [--rate R]|slices of N places until there is a verdict'
    'survey|PLAN NOTES --budget N [--rate R] [--anew]|the same, but note each violated place and go on'
    'words|[PLAN]|print the numbers of a plan, one record per line'
    'shape|[PLAN]|say whether a plan is well-formed'
    'encode|TEXT PLAN [--replace]|write a plan file from its text, and its names beside it'
    'decode|[PLAN]|print the text of a plan, with names and units'
    'convert|OLD NEW [first]|write a plan file of versions 1 and 2 anew, for this version'
    'admit|PLAN NEW OPTION...|find slots for new streams, and write the plan with them to NEW'
    'gates|PLAN LINK [OPTION...]|print or write the gate lists of an accepted plan, for its switches'
    'draw|PLAN OPTION...|draw a link or a stream of a plan over time, as an SVG picture'
    'network|[NETWORK [CLAIM]]|find times that keep all constraints, or test a claim'
)
is_installed || commands+=(
    'library||prove and build the calls for C'
    'install|DIR|put the command, the calls for C and a man page into a folder'
)
commands+=(
    'help|[COMMAND]|list the commands, or say what one does'
    'version||print the version and the edition of the rules (also --version)'
)
is_installed || commands+=(
    'test||prove every crate and run every test'
    'compare|[OPTION N]|compare the calls for C with a plain checker'
    'bench|[OPTION N]|time the check beside plain ones'
)

is_command() { # NAME
    local line
    for line in "${commands[@]}"; do
        [[ ${line%%|*} != "$1" ]] || return 0
    done
    return 1
}

# Prints a text in which this command is called as it is called here.
as_called() { # TEXT
    local text=${1//.\/conepalhui/"$called"}
    ! is_installed || text=${text//docs\//share/doc/conepalhui/}
    printf '%s\n' "$text"
}

# Prints how a command is called.
usage() { # NAME
    local line name arguments
    for line in "${commands[@]}"; do
        IFS='|' read -r name arguments _ <<<"$line"
        [[ $name != "$1" ]] || printf '%s %s %s' "$called" "$name" "$arguments"
    done
}

# Prints the list of commands.
list_commands() {
    local line name arguments summary
    printf 'Conepalhui: a verified checker of network timetables.\n\n'
    for line in "${commands[@]}"; do
        IFS='|' read -r name arguments summary <<<"$line"
        printf '  %s %-42s %s\n' "$called" "$name $arguments" "$summary"
    done
    printf '\n%s\n' "'$called help answers' explains what start, slice, move, recheck and run print."
    printf '%s\n%s\n%s\n' 'Exit status: 0 done, accepted, granted, admitted or nothing violated; 1 a violated plan, a stream or a link left out, a network' \
        'without times, a false claim or a failed test; 2 the input was refused; 3 paused, or no verdict on the whole plan; 4 bad arguments,' \
        'a file that cannot be read or written, or a program that cannot be built or run.'
}

# Prints what one command does, or what answers there are.
tell_command() { # NAME
    local line name arguments summary
    [[ $1 != answers ]] || { as_called "$(about_answers)" && return; }
    for line in "${commands[@]}"; do
        IFS='|' read -r name arguments summary <<<"$line"
        [[ $1 == "$name" ]] || continue
        printf '%s %s: %s\n\n' "$called" "$name${arguments:+ $arguments}" "$summary"
        as_called "$("about_$name")"
    done
}

do_help() {
    (($# <= 1)) || stop "help takes one command at most"
    (($# == 1)) || { list_commands; return; }
    is_command "$1" || [[ $1 == answers ]] || stop "unknown command '$1': '$called help' lists them"
    tell_command "$1"
}

about_check() {
    cat <<'END'
Reads the plan file PLAN, or standard input, and checks it whole. It prints two lines: 'legs G places N', and
'accepted' or 'violated LEG PLACE RULE' with the first violated place. The places of leg a are 0 window, 1 hop,
2 deadline, and 3 + b for the overlap with each leg b below it. docs/ACCEPTED.md says what the rules are and what
'accepted' does not cover. A plan that cannot be checked gives one line, 'refused NUMBER AT' (AT is a record or a
byte), and standard error says why. Exit status: 0 accepted, 1 violated, 2 refused, 4 where the plan cannot be read.

With --all it prints a line for every violated place, in order, and then how many there are, 'violated M of N places', or
'accepted'.
After a violated verdict standard error has the call of 'explain' that says why.
END
}

about_explain() {
    cat <<'END'
Says what the rule at a place of the plan PLAN asks, with the plan's own numbers put in, and by how many ns it is kept or
fails: at the place LEG PLACE, at the place where CURSOR stands, or, with neither, at the first violated place. For an
overlap it gives the first instant at which both frames hold the link, and their repeats, so that a pocket calculator can
follow. Where another offset of that one leg would mend that one place, it gives the nearest ones below and above with
which the leg also keeps its window; its period word stays as it is. Other places may be violated then: check again.

docs/EXPLAINED.md goes through an example. Nodes and streams have the names of
PLAN.names, where there is one ('help encode'). It speaks of the plan as it is now, also where CURSOR last saw another one.

Exit status: 0 the place holds, or nothing is violated; 1 it is violated; 2 the plan, the cursor or the place is refused
(9: no such leg or place); 4 bad arguments, or a file that cannot be read.
END
}

about_slack() {
    cat <<'END'
Reads the plan file PLAN, or standard input, and prints of an accepted plan where it is thin: of the windows, hops and
deadlines the ten each with the fewest ns left, least first. A plan that is not accepted gives its first violated place.
docs/EXPLAINED.md says what the numbers mean. Exit status: 0 accepted, 1 violated, 2 refused, 4 where the plan cannot be
read.
END
}

about_answers() {
    cat <<'END'
What start, slice, move, recheck and run print on standard output, and their exit status:

  first line                                       second line                  exit status
  granted LEG PLACE revision R                     places DONE of ALL           0
  nothing violated steps N revision R              places ALL of ALL            0
  violated LEG PLACE RULE steps N revision R       places DONE of ALL           1
  refused NUMBER AT [revision R]                   in the plan|cursor|move|leg  2
  refused changed|unseen revision R                in the plan                  2
  refused begun LEG PLACE revision R               in the cursor                2
  refused edition E revision R                     in the cursor                2
  paused LEG PLACE steps N revision R              places DONE of ALL           3

LEG and PLACE are where the cursor is now. N is how many places the slice looked at; after a run, its last slice. R is
the revision of the plan that was judged; after a move it is the new one, and after 'begun' the cursor's. DONE is how
many places come before the cursor. 'in the ...' says what was refused.
A move has a third line, 'leg LEG from OLD to NEW ns, periods from OLD to NEW'. A run has one too, 'looked at N places in
K slices'. A recheck has the three lines of its move, if it makes one, and then two more, by which its exit status goes:

  nothing violated looked at N of ALL places revision R         whole plan: accepted, since ...             0
  violated LEG PLACE RULE looked at N of ALL places revision R  whole plan: first violated here, since ...  1
  violated LEG PLACE RULE looked at N of ALL places revision R  whole plan: violated, and before this ...   1
  nothing violated looked at N of ALL places revision R         whole plan: not known, since ...            3

A refusal changes no file. Standard error says what is wrong and, where another call is needed, which one.
docs/REFUSALS.md has the numbers. The four words:

  changed   the plan is not the one last seen with this cursor: it was edited, restored or exchanged
  unseen    there is no CURSOR.seen, the copy of the plan beside the cursor: these commands did not make this cursor,
            or somebody copied it
  begun     a start on a cursor that is past the first place
  edition   the cursor was saved under edition E of the rules and not under this one (--version): what it has passed was
            not judged by these rules. This comes before 8 to 11 and 17; the other words come after all numbers

NEVER ALTER, RENAME OR COPY A CURSOR, OR PUT ONE BACK FROM A BACKUP. One that fits the plan is believed, and slots that
were moved would never be looked at again.

Exit status 4, with a message and no answer: an argument is bad, or a file cannot be read or written or was not made
by these commands. Files are replaced whole, so that they survive a power cut; docs/OPERATIONS.md says what each crash
leaves. One call at a time works on the files of a folder. Others wait, for each folder 10 seconds at most or as many
as the variable CONEPALHUI_WAIT says, and then end with 4 without having changed anything.
END
}

# The last line of what is said of each of these commands.
see_answers() { printf '\n%s\n' "'./conepalhui help answers' explains the answer and the exit status."; }

about_start() {
    cat <<'END'
Starts a check of the plan file PLAN at its first place. It makes CURSOR, which keeps how far the check is, and
CURSOR.seen beside it, a copy of the plan. A plan that is not well-formed is refused, and nothing is made.

A cursor that is past the first place is replaced only with --anew, which drops how far that check was, also where it
was saved under another edition of the rules. A file that these commands did not make is never replaced
(docs/OPERATIONS.md).
END
    see_answers
}

about_slice() {
    cat <<'END'
Looks at the next BUDGET places (0 to 4294967295) from CURSOR on, and stops sooner only at a violated place or at the
end. CURSOR then says where to go on. 'nothing violated' says that the whole plan holds as it is now, where only these
commands have written CURSOR and CURSOR.seen. Without a CURSOR there is no slice: start first.
END
    see_answers
}

about_move() {
    cat <<'END'
Sets the offset of leg LEG to OFFSET, in ns (0 to 4294967295), and its period word to PERIODS (0 to 7, and 0 where it is
not given): so many whole periods late the frame is sent on that leg. It raises the plan's revision by one. PLAN and
CURSOR are replaced; a CURSOR past the start of that leg goes back to it. 'granted' says that both are on the disk, and
the third line has the old numbers and the new ones. A move that ended with 4, or was cut off, may be in the plan: look
at the revision of the next answer before you make it again.
END
    see_answers
}

about_recheck() {
    cat <<'END'
For one late move in a plan that was accepted. With OFFSET it makes the move just as 'move' does, with the same files and
refusals, and the same three lines; without OFFSET nothing is moved. Then it looks only at the places at which leg LEG can
be read: all places of that leg, the overlaps of later legs with it, the hop of the next leg of its stream and the deadline
of its stream. These are at most 4 more than the plan has legs. It prints the first violated one and its rule, or that
none is, how many were looked at, and what that says of the whole plan:

  accepted               where it is known that a plan that is the same but for leg LEG (and the revision) was accepted:
  first violated here    the verdict is that of a whole check, the first violated place included
  not known              where it is not known: nothing is violated at these places, and nothing is said of any other
  violated, and ...      the same, with a violated place: one before it may be violated too

It is known where CURSOR was at the end of this very plan, before the move if there is one; or by CURSOR.accepted, which only
recheck writes: it keeps each plan that is found accepted so, and where a place is violated after a CURSOR at the end, the
plan before the move. So one recheck may follow another, and after a violated one the same leg may be moved again. A 'move' of
another leg loses it, until a run ends with nothing violated (docs/OPERATIONS.md).

CURSOR goes back to the leg as with 'move', and is never set to the end. Without OFFSET it may be missing.
END
    see_answers
}

about_run() {
    cat <<'END'
Makes slices of N places, one after the other, until the check is no longer paused, and prints the last answer. Where
there is no CURSOR it starts a check. R is places per second: slices begin at least N / R seconds apart. Between two
slices the plan is free for others: a move with the same CURSOR is taken into account. If PLAN or CURSOR is a link and
leads to another file before the next slice, the run ends with 4. It can be stopped at any time, and goes on from
there. Standard error says how far it is: on a terminal after each slice, elsewhere about every ten seconds.
END
    see_answers
}

about_survey() {
    cat <<'END'
Looks at all places in slices of N, as 'run' does, but notes each violated place and goes on behind it, so that by the
morning all of them are known. It prints a line for each, and then 'violated M of N places' or 'nothing violated, places N
of N', and the revision. R is places per second: slices
begin at least N / R seconds apart. It can be stopped at any time, and goes on from there.

NOTES is a text that this command makes: of which plan it is, the places noted so far, and where the survey stands. THAT IS
NO CURSOR: before it there may be violated places, and no command takes these notes for a cursor. Nor does a survey change
any cursor. Where the plan is changed while it runs, by a move or otherwise, the survey begins anew, since what it had
passed was of another plan. Notes of another plan, or of this one before a change, are only dropped with --anew; a file
that is no notes is never replaced, and notes that do not fit their own sum are not believed. Do not write them yourself: a
sum that fits is believed.

Exit status: 0 no place is violated, 1 some are, 2 the plan is refused, 4 bad arguments, or a file that cannot be read or
written.
END
}

about_words() {
    cat <<'END'
Reads the plan file PLAN, or standard input, and prints its numbers, one record per line: the header, the links,
the streams, the legs. docs/ACCEPTED.md names them. Bytes that are no plan file give one line, 'refused NUMBER AT', and the
exit status 2; standard error says why. Links, streams and legs are not judged.
END
}

about_shape() {
    cat <<'END'
Reads the plan file PLAN, or standard input, and prints 'well-formed', or one line, 'refused NUMBER AT', with the exit
status 2; standard error says why. The rules are not judged: that is 'check'.
END
}

about_encode() {
    cat <<'END'
Reads TEXT, a plan as a person writes it, and writes the plan file PLAN; - is standard input. A text has a record to a line:

  plan revision 0 precision 100ns
  node press 1
  link press -> switch rate 1G propagation 500ns
  stream stop period 100us deadline 2352ns octets 64
  leg press -> switch offset 0ns periods 0

'plan' comes first, and may be left out. Nodes are numbers or names; 'node' gives a number its name. Legs stand below their stream and name
their link by its ends. Times have a unit: ns, us, ms or s. Rates are 10M, 100M, 1G, or as in 7ns/octet. # begins a comment.
docs/TEXTS.md has all of it.

It prints 'encoded links N streams S legs G bytes B revision R'; PLAN is on the disk then. Where the text has names it is kept
as PLAN.names, where other commands find them. Neither file is replaced if it is there, unless with --replace; each is then
replaced whole, PLAN.names first. The plan is not judged: check PLAN.

Where lines are wrong it prints 'refused lines N', how many they are, and standard error says of each what stands there and what
is expected. Nothing is written then. A text of more than 262144 bytes is 'refused long'. Exit status: 0 encoded, 2 refused, 4
bad arguments, or a file that cannot be read or written or is there already.
END
}

about_decode() {
    cat <<'END'
Reads the plan file PLAN, or standard input, and prints its text, which 'encode' writes as the same file, byte for byte, whether
it is well-formed or not. Times have the largest unit in which they are whole. Names come from PLAN.names, which 'encode' keeps
beside a plan; where that is of another plan, standard error says so, and numbers are printed. Moves change neither the names nor
PLAN.names. The text is read again before it is printed, and is printed only if it gives the same plan back. docs/TEXTS.md has
the form.

Bytes that are no plan file give one line, 'refused NUMBER AT', and the exit status 2; standard error says why. Exit status: 0
printed, 2 refused, 4 where the plan cannot be read.
END
}

about_convert() {
    cat <<'END'
Reads OLD, a plan file of the first layout, as versions 1 and 2 wrote it, and writes the same plan to NEW in the layout
of today: 0 as the period word of each leg, and everything else as it was, the revision too. OLD stays as it is, and a file
that is there already is never replaced. It prints 'converted legs G bytes N revision R'; NEW is on the disk then.

A plan file does not tell its layout, and none is guessed: the word 'first' names it, and is meant where it is not given.
A plan without legs is the same in both layouts. Any other file of this version is refused (14), and so is an old file
by the other commands (12). What is no plan file gives one line, 'refused NUMBER AT', the exit status 2, and no NEW;
standard error says why. Links, streams and legs are not judged: check NEW, and start anew (docs/OPERATIONS.md).

Exit status: 0 converted, 2 refused, 4 bad arguments, or a file that cannot be read or written or is there already. Cut off,
it leaves no NEW, the whole one, or an empty file of that name, which you may remove.
END
}

about_admit() {
    cat <<'END'
Looks for a slot for a new stream in the accepted plan PLAN, and writes the plan with that stream to NEW. No old leg moves,
and the frame never waits on its way: each leg starts when the one before it has arrived. The answer is the least first
offset with which the new plan is accepted. docs/ADMISSIONS.md says what this means and what it does not.

  --period T --deadline D --octets N    the stream: T and D in ns. And its route, in one of three ways:
  --route L,L,...                       the numbers of its links
  --from A --to B                       the shortest way from node A to node B, by the lowest links
  --from A --to B --via N,N,...         the way along these nodes

  --streams FILE    several streams, one after the other, and nothing else: a text with a stream to a line, the same names
                    without dashes, in any order, and perhaps 'name WORD'. What follows a '#' is a comment. For example:
                    name press route 0,1 period 100000 deadline 5000 octets 64

It prints 'admitted stream S offset X', a line for each leg with its start and arrival, and 'written streams S legs G
revision R bytes N'; NEW is on the disk then. PLAN stays as it is, and a file that is there already is never replaced.
Answers about a streams file begin with 'line N:', or 'line N NAME:'. A stream that is refused is left out, and NEW has the
others; where none is admitted, nothing is written.

'refused NUMBER AT' says that a stream, or the plan, is refused, and standard error says why: 18 no first offset fits; 19
the plan is not accepted, and a second line has its first violated place; 20 the stream is out of range, its route is
wrong, or the plan is full; 11 the revision cannot rise; others as 'check' says them. A streams file with a bad line gives
'refused line N', one that is too long 'refused long', one without a stream 'refused streams', and nothing is written.

A long search says on standard error how far it is. It can be stopped at any time, and writes nothing then; the folders of
PLAN and NEW are locked meanwhile. Exit status: 0 all admitted, 1 some were left out, 2 refused, and nothing is written,
4 bad arguments, or a file that cannot be read or written or is there already.
END
}

about_gates() {
    cat <<'END'
The gate list of a link says which gates of its port are open when, from instant 0 on, and is repeated without end. It is
pairs of a mask and a duration in ns. The mask has a bit for each gate: 128, gate 7 alone, while a leg holds the link, and
127, all others, while none does. What a switch has to do besides stands in docs/OPERATIONS.md, "Gate lists". Links are
numbered from 0, as 'words' prints them. Only an accepted plan has lists.

  gates PLAN LINK               prints the list: 'pairs N cycle C', where C is how many ns it lasts, and a line 'MASK NS' for
                                each pair. A link without legs has 'pairs 0 cycle 0'
  gates PLAN LINK --out FILE    writes it to the new file FILE, in seven-bit numbers, and prints 'written link L pairs N cycle
                                C bytes B revision R'. The list of a link without legs is an empty file
  gates PLAN --all FOLDER       writes the lists of all links to the new folder FOLDER: link-000.gates, link-001.gates and
                                so on. It prints a line for each link, and 'written lists N of M revision R'
  gates --read LIST             prints the pairs of a list file, of whatever make, as the first form does

  --as taprio                   with one of the first three: as the command tc of Linux takes a list, with hexadecimal masks,
                                the words from 'base-time' on. Files are called link-000.taprio then. The list of a link
                                without legs is no text at all
  --base-time NS                the list begins at NS, and not at 0
  --dev NAME                    a whole command of tc, for the port NAME; not with --all. There is none for a list of more
                                than 30 pairs, of which tc would set the beginning: 'refused tc'

What is written is on the disk then. Nothing is ever replaced, and whatever stops the command, neither FILE nor FOLDER is
there in part. Both are as private as PLAN. Folders are locked meanwhile ('help answers'), but not to print a list. With --all
a long call says on standard error how far it is.

'refused NUMBER AT' says that there is no list, and standard error says why: 23 there is no such link; 19 the plan is not
accepted, and a second line has its first violated place; 21 the least common multiple of the periods on the link passes
1000000000 ns; 22 the list would have more than 1024 pairs; others as 'check' says them. With --all, 21 and 22 stand in the
line of the link, and the other lists are written; if no link has a list, nothing is written. A list file is refused 12
where it ends too early, also in the middle of a pair, 13 for a number that is too long or too large, and 'long' above
65536 bytes.

Exit status: 0 printed or written; 1 some links have no list; 2 refused, and nothing is written; 4 bad arguments, or a file
that cannot be read or written or is there already.
END
}

about_draw() {
    cat <<'END'
Draws a plan over time, as a picture in SVG that a browser shows. A plan that violates rules is drawn too.

  draw PLAN --link L      each leg on link L has a row, with its holds over the link's cycle: the least common multiple of
                          the periods on it. Where that passes 1 s, or would be too full to read, the picture shows its
                          beginning and says so. Legs that meet another or leave their window are red; below stands where
                          each pair first meets, and a mark is there. At most 20 violated places are listed
  draw PLAN --stream S    each leg of stream S has a row, with the frame of period 0 on its way: on the wire, the gap after
                          it, propagation and clock precision, how much time each hop and window has left, and the deadline

  --from NS, --to NS      with --link: the stretch from one instant to another, of at most 20000 holds
  --out FILE              writes the picture to the new file FILE, and prints 'written link L bytes B'. It is on the disk
                          then, and as private as PLAN. FILE is never replaced, nor there in part. Folders are locked
                          meanwhile ('help answers')

Nodes and streams have the names that stand in PLAN.names, if that is there, and else their numbers.

'refused NUMBER AT' says that there is no picture, and standard error says why: 23 there is no such link; others as 'check'
says them. 'refused stream' is a stream that is not there, 'refused stretch' one with too many holds. Exit status: 0 printed
or written, 2 refused, 4 bad arguments, or a file that cannot be read or written or is there already.
END
}

about_network() {
    cat <<'END'
Reads a temporal network, the file NETWORK or standard input: a text with a constraint to a line.

  TO - FROM <= NUMBER    the time of the event TO minus that of the event FROM is at most NUMBER
  TO - FROM >= NUMBER    it is at least NUMBER
  event NAME             names an event that no constraint needs to name
  # ...                  a comment, also after one of these

Words have spaces or tabs between them. A name is any word; events are numbered in the order in which their names first
appear. Numbers are whole, from -1000000000 to 1000000000. There are at most 128 events and 2048 constraints.
A name has no '#', which begins a comment, and no control byte; what else a screen does not show makes another name.

It prints 'times N' and a line 'time NAME T' for each event: these times keep all constraints, none is above 0, and
each is the latest that is possible so. TIMES SAY THAT IT CAN GO WELL, NOT THAT IT ALWAYS DOES (docs/NETWORKS.md). Where
no times exist it prints 'chain L sum S' and the constraints of a closed chain, 'line N: TO - FROM <= C, sum R', with
the line in the text and the sum so far: each goes from FROM to TO, and added up they say that a time is below itself.
Which chain is printed may change with the version.

With a CLAIM it tests one, whoever made it: a text with lines 'time NAME NUMBER', or with lines 'line N: ...', as above.
It prints 'kept', or 'broken' and the first constraint that the times do not keep; 'chain', or 'no chain'. An event
without a time keeps no constraint. What this command printed can be given back as it is (but 'times 0'); of it
only the times and the line numbers are read.

A text with a bad line gives 'refused line N' with the first one, 'refused long' or 'refused claim', a network
past the limits 'refused 27 0', a number out of range 'refused 16 K' with its constraint, counted from 0. Standard error
says why. Exit status: 0 times, kept or chain of a claim; 1 a chain that was found, broken or no chain; 2 refused;
4 where a file cannot be read.
END
}

about_help() {
    cat <<'END'
Without a COMMAND it lists the commands. With one it says what that command does. 'answers' in its place explains what
start, slice, move, recheck and run print.
END
}

about_version() {
    cat <<'END'
Prints the version, and the edition of the rules. A cursor that was saved under another edition is refused: start anew
with --anew. A verdict holds for its edition: file the two together.
END
}
