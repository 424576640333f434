# What people run: checks of a plan, and checks that are paused and resumed. The command conepalhui reads this file.

# How many seconds to wait for others.
patience=${CONEPALHUI_WAIT:-10}

# ---- The programs

# Whether a command, or a file by its whole path, is there.
has() { [[ $1 == /* && -e $1 ]] || command -v "$1" >/dev/null; } # COMMAND-OR-FILE

cross=/usr/x86_64-linux-gnu # Where Debian's C library for x86-64 stands on other processors.

# Finds how programs run here, $runner. They are for x86-64: on Arm they run under Debian's emulator.
find_runner() {
    local machine
    machine=$(uname -m)
    runner=()
    case $machine in
    x86_64) ;;
    aarch64)
        has qemu-x86_64 && has "$cross/lib64/ld-linux-x86-64.so.2" ||
            stop "programs are for x86-64, and its emulator is missing here: apt-get install qemu-user libc6-amd64-cross"
        # The loader is named with its own libraries: others for x86-64 may stand on this machine, and do not go with it.
        runner=(qemu-x86_64 "$cross/lib64/ld-linux-x86-64.so.2" --library-path "$cross/lib")
        ;;
    *) stop "programs run on x86_64 and aarch64, and this processor is ${machine:-unknown}" ;;
    esac
}

# Makes the program NAME ready to run. In the repository it is proved and built, unless it is fresh.
prepare() { # NAME
    find_runner
    is_installed || build "$1"
}

# Runs a program.
run_program() { # NAME ARGUMENT...
    (
        for word in "${!QEMU_@}"; do unset "$word"; done
        exec "${runner[@]}" "$programs/$1" "${@:2}"
    )
}

# Takes the last line, and the byte after it, off what a program wrote, $wrote. That line has the exit status that goes with the answer, $status, and what this
# command does next, $why. A program always ends with status 0: without this line its answer is not whole.
take_status() {
    local rest=${wrote%$'\n.'} line
    [[ $rest != "$wrote" ]] || return 1
    line=${rest##*$'\n'}
    [[ $line =~ ^status' '([0-3])(' '.+)?$ ]] || return 1
    status=${BASH_REMATCH[1]} why=${BASH_REMATCH[2]# } wrote=${rest%"$line"}
    [[ -n $wrote ]]
}

# What a program reads from standard input: a plan, or what a command says in its place.
read_as=plan

# Asks a program of the plan on standard input, and passes its answer on.
answer() { # PROGRAM ARGUMENT...
    local wrote status why=''
    # Where it is closed, the program would be given the end of a pipe in its place.
    [[ -e /dev/fd/0 ]] || stop "standard input is closed: the $read_as cannot be read"
    prepare "$1"
    wrote=$(run_program "$@" && printf .) || stop "the program $1 ended with status $?"
    [[ $wrote != . ]] || stop "the program $1 printed nothing: the $read_as cannot be read"
    take_status || [[ $why == empty ]] || stop "the program $1 gave no whole answer"
    printf '%s' "$wrote" | cat || stop "cannot write to standard output"
    [[ $status != 1 || -z ${hinted+plan} ]] || hint "$wrote" "$hinted"
    return $status
}

# ---- Plans

# Finds a file that is read, $file.
find_input() { # WHAT PATH
    file=$2
    [[ $file == /* ]] || file=$from/$file
    [[ -e $file ]] || stop "there is no $1 $file"
    [[ -f $file || -p $file || -c $file ]] || stop "$file is not a file"
    [[ -r $file ]] || stop "the $1 $file may not be read"
}

# Makes the plan that a command is given its standard input, where one is given.
take_plan() { # COMMAND [PLAN]
    local file
    (($# <= 2)) || stop "$1 takes one $read_as at most: $(usage "$1")"
    if (($# == 2)); then
        find_input "$read_as" "$2"
        exec <"$file" || stop "the $read_as $file may not be read"
    elif [[ -t 0 ]]; then
        note "the $read_as is read from this terminal: to give a file, $(usage "$1")"
    fi
}

do_words() { take_plan words "$@" && answer operator words; }
do_shape() { take_plan shape "$@" && answer operator shape; }

# A temporal network, and a claim on it. The program opens the claim by the file that is open here: standard input is the network's by then.
do_network() {
    local read_as=network file claim open=()
    (($# <= 2)) || stop "network takes a network and a claim at most: $(usage network)"
    if (($# == 2)); then
        find_input claim "$2"
        exec {claim}<"$file" || stop "the claim $file may not be read"
        open=("/dev/fd/$claim")
    fi
    take_plan network "${@:1:1}"
    ((${#open[@]} == 0)) || read_as="network or the claim"
    answer temporal "${open[@]}"
}

# Prints what the header defines by a name, without quotes.
defined() { # NAME
    local word name value
    while read -r word name value _; do
        [[ $word != '#define' || $name != "$1" ]] || { value=${value#\"} && printf %s "${value%\"}" && return; }
    done <"$header"
    return 1
}

do_version() {
    (($# == 0)) || stop "version takes no argument"
    printf 'conepalhui %s, edition %s of the rules\n' "$(defined CONEPALHUI_VERSION)" "$(defined CONEPALHUI_EDITION)" || stop "cannot write to standard output"
}

# ---- The files of an operator: a plan and a cursor

# Prints the real path of a file, which need not be there, and a byte after it.
real_path() { # PATH
    local path=$1
    [[ $path == /* ]] || path=$from/$path
    readlink -f -- "$path" && printf .
}

# Ends a call that is given a name of the commands' own files.
stop_at_kept_name() { # PATH
    [[ $1 != *.conepalhui-new && $1 != *.seen && $1 != *.accepted && $1 != *.names ]] ||
        stop "names that end in .conepalhui-new, .seen, .accepted or .names are kept for files of these commands: give $1 another name"
}

# Whether a path is UTF-8: the programs open no file by another one.
is_text() { # PATH
    local LC_ALL=C more=$'[\x80-\xbf]'
    [[ $1 =~ ^([$'\x01'-$'\x7f']|[$'\xc2'-$'\xdf']$more|$'\xe0'[$'\xa0'-$'\xbf']$more|[$'\xe1'-$'\xec'$'\xee'$'\xef']$more$more|$'\xed'[$'\x80'-$'\x9f']$more|$'\xf0'[$'\x90'-$'\xbf']$more$more|[$'\xf1'-$'\xf3']$more$more$more|$'\xf4'[$'\x80'-$'\x8f']$more$more)*$ ]]
}

# Ends a call whose program would be given the path of a file that it could not open.
need_text() { # PATH...
    local path
    for path; do
        is_text "$path" || stop "the path $(printf %q "$path") is not UTF-8, and no file is opened by such a path: give the file, or its folder, another name"
    done
}

# Finds the files $plan and $cursor. Links are followed, so that a file is replaced and not the link to it.
find_files() { # PLAN CURSOR
    local path
    [[ -n $1 && -n $2 ]] || stop "the plan and the cursor are paths, and one of them is empty"
    plan=$(real_path "$1") || stop "cannot find the plan $1"
    cursor=$(real_path "$2") || stop "cannot find the folder of the cursor $2"
    plan=${plan%$'\n.'} cursor=${cursor%$'\n.'}
    for path in "$plan" "$cursor"; do
        stop_at_kept_name "$path"
    done
    [[ -f $plan ]] || stop "there is no plan file $1"
    need_text "$plan" "$cursor"
    [[ ! -e $cursor || -f $cursor && -w $cursor ]] || stop "the cursor $2 is not a file that can be written"
    [[ ! -L $cursor.seen && (-f $cursor.seen || ! -e $cursor.seen) ]] || stop "$cursor.seen is no file, and the copy of the plan has this name: give the cursor another name"
    [[ ! $plan -ef $cursor ]] || stop "the plan $1 and the cursor $2 are one file"
}

# Holds a folder as an open file, which the program inherits: the folder is free again when both have ended.
hold_folder() { # FOLDER
    local file
    exec {file}<"$1" || stop "cannot read the folder $1"
    held+=("$file")
    flock -w "$patience" "$file"
    case $? in
    0) ;;
    1) stop "waited $patience s for other calls in $1. This call changed nothing: try again" ;;
    *) stop "cannot lock the folder $1" ;;
    esac
}

# Holds the folders of the plan and the cursor, always in the same order, so that one call at a time works on either.
hold() {
    local one=${plan%/*}/ other=${cursor%/*}/ LC_ALL=C
    [[ $patience =~ ^[0-9]+(\.[0-9]+)?$ ]] || stop "CONEPALHUI_WAIT is a number of seconds, and not '$patience'"
    [[ $one < $other ]] || local one=$other other=$one
    held=()
    hold_folder "$one"
    [[ $one -ef $other ]] || hold_folder "$other"
}

# Holds the files that were found. Where their names lead to other files by now, the answer would be read as one about those.
hold_found() { # PLAN CURSOR
    local found_plan=$plan found_cursor=$cursor
    hold
    find_files "$@"
    [[ $plan == "$found_plan" ]] || stop "the plan $1 led to $found_plan and leads to $plan now: no answer is given. Give the plan that is meant, and a cursor of its own"
    [[ $cursor == "$found_cursor" ]] || stop "the cursor $2 led to $found_cursor and leads to $cursor now: no answer is given. Give the cursor that is meant"
}

release() {
    local file
    for file in "${held[@]}"; do exec {file}<&-; done
}

# What is made is as private as the plan, and its owner may read and write it. Who may read a folder may look into it.
keep_private() {
    local mode
    mode=$(stat -c %a -- "$plan") && umask "$(printf %o $((~(0$mode | 0700 | (0$mode & 0444) >> 2) & 0777)))" || stop "cannot read the plan $plan"
}

# Asks the program operator. Its answer is $wrote, the exit status that goes with it $status, and $why says what this command does next. What it says on
# standard error is passed on, on lines of its own.
consult() { # VERB WORD...
    local pipe line ended said=0
    keep_private
    exec {pipe}<> <(:) || stop "cannot make a pipe"
    wrote=$(run_program operator "$1" "$plan" "$cursor" "${@:2}" 2>&"$pipe" && printf .)
    ended=$?
    while read -t 0 -u "$pipe"; do
        IFS= read -r -t 1 -u "$pipe" line # Where the program was killed, the last line may have no end.
        end_progress
        printf '%s\n' "$line" >&2
        said=1
    done
    exec {pipe}>&-
    ((ended == 0)) || stop "the program operator was stopped. Each file is whole, the old one or the new one, and a move may have been made"
    take_status && return
    end_progress
    [[ $1 == start || $1 == convert || $1 == recheck && $# -eq 2 || -e $cursor ]] || stop "a check begins with: $(shown_call start "${given[@]}")"
    ((said == 0)) || exit 4
    stop "the program operator gave no answer"
}

# Prints a call of this command that can be pasted. A file whose name begins with a dash is no option.
shown_call() { # VERB PLAN CURSOR WORD...
    local word
    printf '%q %s' "$0" "$1"
    for word in "${@:2:2}"; do
        [[ $word != -* ]] || word=./$word
        printf ' %q' "$word"
    done
    [[ -z ${*:4} ]] || printf ' %s' "${*:4}"
}

# Says how to start anew where nothing is in the way.
start_anew() { # PLAN CURSOR
    printf 'To check the plan as it is now, from its first place: %s' "$(shown_call start "$@" --anew)"
}

# Says the same where the program has said that it leaves a file as it is. Once that is gone, the cursor beside it is in the way too.
start_by_hand() { # PLAN CURSOR
    printf 'Unless they are files of your own, remove %q and %q. Then this checks the plan as it is now, from its first place: %s' "$cursor" "$cursor.seen" "$(shown_call start "$@")"
}

# Prints the answer, and after a refusal that asks for it how to go on or to start anew. The files are named as they were given.
pass_on() { # PLAN CURSOR
    local leg place revision edition present other="this is not the plan that was last seen with this cursor: something other than a move changed it, or $cursor.seen was damaged."
    printf '%s' "$wrote" || stop "cannot write to standard output"
    ((status != 1)) || hint "$wrote" "$1"
    case $why in
    changed) note "$other $(start_anew "$@")" ;;
    damaged) note "$other $(start_by_hand "$@")" ;;
    unseen) note "there is no $cursor.seen, so nobody can say whether the plan was changed. To check the plan as it is now, from its first place, with a new cursor: $(shown_call start "$1" "$2-2")" ;;
    'edition '*)
        read -r _ edition present <<<"$why"
        note "the cursor $2 was saved under edition $edition of the rules, and this is edition $present: what it has passed was not judged by these rules. $(start_anew "$@")"
        ;;
    'begun '*)
        read -r _ leg place revision <<<"$why"
        note "the cursor $2 is at leg $leg, place $place of a check at revision $revision. Nothing was changed." \
            "To go on with that check: $(shown_call run "$@" --budget 300)." \
            "To drop it and start at the first place: $(shown_call start "$@" --anew)"
        ;;
    ended) note "the check with the cursor $2 has ended. If the plan is still the same, a slice gives its verdict again. $(start_anew "$@")" ;;
    'cursor 8') note "a move was made with another cursor or was cut off, or one of the two files was exchanged. If the cursor's revision is the higher one, this may be an old plan, and moves are missing in it. $(start_anew "$@")" ;;
    'cursor '*) note "the cursor was altered, or belongs to another plan. $(start_anew "$@")" ;;
    foreign) note "$(start_by_hand "$@")" ;;
    alone) note "for a verdict on the whole plan: $(shown_call run "$@" --budget 100000). After 'nothing violated' a recheck speaks for the whole plan" ;;
    esac
    return $status
}

# One call on a plan and a cursor. With an offset, a recheck is a move too.
call() { # VERB PLAN CURSOR WORD...
    local plan cursor held wrote status why given=("$2" "$3")
    prepare operator
    find_files "$2" "$3"
    [[ $1 != move && ($1 != recheck || $# -eq 4) || -w $plan ]] || stop "the plan $2 is read-only: it can be checked, but its legs cannot be moved"
    hold_found "$2" "$3"
    [[ $1 != recheck || ! -L $cursor.accepted && (-f $cursor.accepted || ! -e $cursor.accepted) ]] ||
        stop "$cursor.accepted is no file, and an accepted plan is kept under this name: remove it, or give the cursor another name"
    consult "$1" "${@:4}"
    release
    pass_on "$2" "$3"
}

do_start() {
    local word anew='' files=()
    for word; do
        case $word in
        --anew) anew=--anew ;;
        -*) stop "start has no option $word: $(usage start)" ;;
        *) files+=("$word") ;;
        esac
    done
    ((${#files[@]} == 2)) || stop "start takes a plan and a cursor: $(usage start)"
    call start "${files[@]}" ${anew:+"$anew"}
}

do_slice() {
    (($# == 3)) || stop "slice takes a plan, a cursor and a budget: $(usage slice)"
    call slice "$@"
}

do_move() {
    (($# == 4 || $# == 5)) || stop "move takes a plan, a cursor, a leg, an offset and perhaps a period word: $(usage move)"
    call move "$@"
}

do_recheck() {
    (($# >= 3 && $# <= 5)) || stop "recheck takes a plan, a cursor, a leg and perhaps an offset and a period word: $(usage recheck)"
    call recheck "$@"
}

# ---- Files of older versions

# Finds the new file, $cursor: its program gets it in the place of a cursor. There must be none of that name, not even a link that leads nowhere.
find_new() { # PATH
    local path=$1
    [[ -n $path ]] || stop "the new file is a path, and it is empty"
    [[ $path == /* ]] || path=$from/$path
    [[ ! -e $path && ! -L $path ]] || stop "$1 is there already, and is never replaced: give the new file another name"
    [[ $path != */ ]] || stop "$1 ends with a slash, but the new file is no folder"
    cursor=$(real_path "$1") || stop "cannot find the folder of the new file $1"
    cursor=${cursor%$'\n.'}
    stop_at_kept_name "$cursor"
}

# The same for a folder, whose name may end with slashes.
find_new_folder() { # PATH
    local path=$1
    [[ -n $path ]] || stop "the new folder is a path, and it is empty"
    [[ $path == /* ]] || path=$from/$path
    while [[ $path == */ ]]; do path=${path%/}; done
    [[ ! -e $path/ && ! -e $path && ! -L $path ]] || stop "$1 is there already, and is never replaced: give the new folder another name"
    cursor=$(real_path "$path") || stop "cannot find the folder of the new folder $1"
    cursor=${cursor%$'\n.'}
    stop_at_kept_name "$cursor"
}

# Finds the plan file that is read, $plan, and what is new, by FIND.
find_old_and_new() { # PLAN NEW FIND
    local file
    find_input "plan file" "$1"
    [[ -f $file ]] || stop "$1 is not a file"
    plan=$(real_path "$1") || stop "cannot find the plan file $1"
    plan=${plan%$'\n.'}
    "$3" "$2"
}

# The same for a new file, or for what FIND finds, and holds their folders. Where a name leads elsewhere by then, nothing is written.
hold_old_and_new() { # PLAN NEW [FIND]
    local find=${3-find_new} found_plan found_new
    find_old_and_new "$1" "$2" "$find"
    found_plan=$plan found_new=$cursor
    hold
    find_old_and_new "$1" "$2" "$find"
    [[ $plan == "$found_plan" ]] || stop "the plan $1 led to $found_plan and leads to $plan now: nothing was written. Give the plan that is meant"
    [[ $cursor == "$found_new" ]] || stop "the name $2 led to $found_new and leads to $cursor now: nothing was written. Give the name that is meant"
}

# Converts a plan file. The layout of the old one is named, never guessed: there is one older layout so far.
do_convert() {
    local plan cursor held wrote status why given=()
    (($# == 2 || $# == 3)) || stop "convert takes an old plan file and a name for the new one: $(usage convert)"
    [[ ${3-first} == first ]] || stop "there is no older layout '$3': the only one is 'first'"
    prepare operator
    hold_old_and_new "$1" "$2"
    need_text "$plan" "$cursor"
    consult convert
    release
    printf '%s' "$wrote" || stop "cannot write to standard output"
    return $status
}

# ---- New streams

# What a streams file has at most: bytes, and streams, of which no plan has more.
most_bytes=262144 most_streams=512

# Prints a word that somebody typed, or its beginning, without what a terminal would act on.
shown_word() { # WORD
    local more=''
    ((${#1} <= 60)) || more=...
    set -- "${1:0:60}"
    printf "'%s%s'" "${1//[[:cntrl:]]/?}" "$more"
}

# Reads a number that a plan can have, $number.
is_word() { # TEXT
    [[ $1 =~ ^0*([0-9]{1,10})$ ]] && ((10#${BASH_REMATCH[1]} <= 4294967295)) && number=${BASH_REMATCH[1]}
}

# Adds the number that stands under a name to $numbers.
add_number() { # NAME
    local number
    [[ -n ${of[$1]+given} ]] || { fault="$dashes$1 is missing"; return 1; }
    is_word "${of[$1]}" || { fault="$dashes$1 is $(shown_word "${of[$1]}"), but it is a number from 0 to 4294967295"; return 1; }
    numbers+=" $number"
}

# The same for a list of numbers.
add_numbers() { # NAME
    local number word words="${of[$1]//,/ }"
    [[ ,${of[$1]} =~ ^(,[0-9]+)+$ ]] || { fault="$dashes$1 is $(shown_word "${of[$1]}"), but it is numbers with commas between them, and no blanks"; return 1; }
    for word in $words; do
        is_word "$word" || { fault="$dashes$1 has the number $(shown_word "$word"), but numbers are 0 to 4294967295"; return 1; }
        numbers+=" $number"
    done
}

# Adds the way of a stream to $numbers, and says which way it is, $way: 0 by links, 1 by nodes, 2 the shortest between two nodes.
add_way() {
    if [[ -n ${of[route]+given} ]]; then
        [[ -z ${of[from]+given}${of[to]+given}${of[via]+given} ]] || { fault="${dashes}route stands beside ${dashes}from, ${dashes}to or ${dashes}via, and only one of the two may be there"; return 1; }
        way=0
        [[ -z ${of[route]} ]] || add_numbers route
        return
    fi
    [[ -n ${of[from]+given} && -n ${of[to]+given} ]] || { fault="there is no ${dashes}route, and not both ${dashes}from and ${dashes}to"; return 1; }
    way=2
    add_number from && { [[ -z ${of[via]+given} ]] || { way=1 && add_numbers via; }; } && add_number to
}

# Reads names and values into $of.
read_words() { # WORD...
    while (($# > 0)); do
        case $1 in
        route | from | to | via | period | deadline | octets | name) ;;
        *) fault="$(shown_word "$1") is none of route, from, to, via, period, deadline, octets and name" && return 1 ;;
        esac
        (($# > 1)) || { fault="there is nothing after $1"; return 1; }
        [[ -z ${of[$1]+given} ]] || { fault="$dashes$1 is there twice"; return 1; }
        of[$1]=$2
        shift 2
    done
}

# Reads what is wanted of a stream, names and values, and adds it to $wanted as the program takes it: a label, a tab and numbers. $fault says what is wrong with it.
take_stream() { # LABEL DASHES WORD...
    local label=$1 dashes=$2 numbers='' way head
    local -A of=()
    read_words "${@:3}" && add_number period && add_number deadline && add_number octets || return
    head=$numbers numbers=''
    add_way || return
    [[ ${of[name]-} != *[[:cntrl:]]* ]] || { fault="the name $(shown_word "${of[name]}") has a control byte"; return 1; }
    wanted+="$label${of[name]+ ${of[name]}}"$'\t'"$way$head$numbers"$'\n'
}

# A streams file that is refused as a whole.
refuse_list() { # WORD SENTENCE
    note "$2"
    printf 'refused %s\n' "$1" || stop "cannot write to standard output"
    return 2
}

# Reads the text of a streams file, $text.
read_list() { # FILE
    local file
    find_input "streams file" "$1"
    IFS= read -r -d '' -n $((most_bytes + 1)) text <"$file" || { text=${text#$'\xef\xbb\xbf'} && return; }
    ((${#text} <= most_bytes)) || { refuse_list long "the streams file $1 has more than $most_bytes bytes" || return; }
    refuse_list streams "the streams file $1 has a byte 0, and is no text"
}

# Reads a streams file into $wanted. Each line that is wrong is told, and the first is the answer.
take_list() { # FILE
    local text='' line lines words n=0 streams=0 first=0 fault LC_ALL=C
    read_list "$1" || return
    mapfile -t lines <<<"$text"
    for line in "${lines[@]}"; do
        n=$((n + 1)) line=${line%$'\r'}
        read -ra words <<<"${line%%#*}"
        ((${#words[@]} > 0)) || continue
        streams=$((streams + 1))
        if ((streams > most_streams)); then
            fault="this is stream $streams, and no plan has more than $most_streams"
        else
            take_stream "line $n" '' "${words[@]}" && continue
        fi
        note "line $n: $fault"
        ((first > 0)) || first=$n
    done
    ((first == 0)) || { printf 'refused line %d\n' "$first" || stop "cannot write to standard output"; return 2; }
    ((streams > 0)) || refuse_list streams "the streams file $1 has no stream"
}

# Says what is to be known of the new plan.
tell_admitted() { # PLAN NEW
    local left all
    read -r _ left all <<<"$why"
    [[ -z $left ]] || note "left out are $left of $all streams, for the reasons above: $2 has the others"
    note "$2 is a plan of its own, and no cursor of $1 belongs to it. To check it in slices: $(shown_call start "$2" "$2.cursor")"
}

# Asks the program slots for what is wanted. What it says on standard error is seen at once: a search may be long, and it says how far it is.
consult_slots() { # NEW
    local said="nothing was written"
    keep_private
    wrote=$(printf '%s' "$wanted" | run_program slots "$plan" "$cursor" && printf .) && take_status && return
    [[ ! -e $cursor ]] || said="$1 is there, and may not be on the disk yet: check it"
    stop "the program slots gave no whole answer: $said"
}

# Ends a call whose arguments say nothing of use.
stop_admit() { stop "$1: '$called help admit' says what is needed"; } # SENTENCE

# Admits streams to a plan, and writes the enlarged plan to a new file.
do_admit() {
    local plan cursor held wrote status why given=() files=() words=() list=() wanted='' fault
    while (($# > 0)); do
        case $1 in
        --route | --from | --to | --via | --period | --deadline | --octets | --streams)
            (($# > 1)) || stop_admit "there is nothing after $1"
            if [[ $1 == --streams ]]; then list+=("$2"); else words+=("${1#--}" "$2"); fi
            shift 2
            ;;
        -*) stop_admit "admit has no option $1" ;;
        *) files+=("$1") && shift ;;
        esac
    done
    ((${#files[@]} == 2)) || stop_admit "admit takes a plan and a name for the new one"
    if ((${#list[@]} > 0)); then
        ((${#list[@]} == 1 && ${#words[@]} == 0)) || stop_admit "beside --streams FILE there is no other option"
        take_list "${list[0]}" || return
    else
        take_stream '' -- "${words[@]}" || stop_admit "$fault"
    fi
    prepare slots
    hold_old_and_new "${files[@]}"
    need_text "$plan" "$cursor"
    consult_slots "${files[1]}"
    release
    printf '%s' "$wrote" || stop "cannot write to standard output"
    ((status == 2)) || tell_admitted "${files[@]}"
    return $status
}

# ---- Gate lists

# The largest base time that tc takes.
most_base=9223372036854775807

# Ends a call whose arguments say nothing of use.
stop_gates() { stop "$1: '$called help gates' says what is needed"; } # SENTENCE

# Removes what was written beside the new file or folder. From a folder only lists are removed.
drop_new() {
    local beside=$cursor.conepalhui-new
    if [[ -d $beside && ! -L $beside ]]; then
        rm -f -- "$beside"/link-[0-9][0-9][0-9].{gates,taprio} && rmdir -- "$beside"
    else
        rm -f -- "$beside"
    fi
}

# Gives what was written beside its name, and brings that to the disk. Nothing is ever replaced.
name_new() { # NEW
    local beside=$cursor.conepalhui-new
    { [[ ! -d $beside ]] || sync -- "$beside"; } && mv -nT -- "$beside" "$cursor" && [[ ! -e $beside ]] || give_up "$1 cannot be made, or is there already: nothing was written"
    sync -- "${cursor%/*}/" || stop "$1 is there, and may not be on the disk yet"
}

# Removes what was written so far, and ends: by the signal that came, if one did.
give_up() { # SENTENCE
    drop_new 2>/dev/null
    [[ -z $signal ]] || { trap - $signal && kill -s $signal $$; }
    stop "$1"
}

# Asks the program export to write beside the new file or folder. A signal that comes meanwhile is heard when the program has ended, and then nothing stays of what was written.
consult_export() { # NEW WORD...
    local name signal=''
    need_text "$cursor"
    keep_private
    for name in HUP INT TERM; do trap "signal=$name" $name; done
    drop_new || give_up "cannot remove $cursor.conepalhui-new, and what is written has this name first"
    [[ $2 != all ]] || mkdir -- "$cursor.conepalhui-new" || give_up "cannot make the folder $cursor.conepalhui-new"
    wrote=$(run_program export "${@:2}" <"$plan" && printf .)
    [[ -z $signal ]] && take_status || give_up "the program export gave no whole answer: nothing was written"
    if ((status == 2)); then drop_new; else name_new "$1"; fi
    trap - HUP INT TERM
}

# Writes a list to a new file, or all lists to a new folder.
write_lists() { # PLAN NEW WORD...
    local plan cursor held wrote status='' why without all
    prepare export
    if [[ $3 == all ]]; then
        hold_old_and_new "$1" "$2" find_new_folder
        consult_export "$2" "${@:3}" "$cursor.conepalhui-new"
    else
        hold_old_and_new "$1" "$2"
        consult_export "$2" "${@:3}" "$cursor"
    fi
    release
    printf '%s' "$wrote" | cat || stop "cannot write to standard output$( ((status == 2)) || printf %s ", but $2 is written, of the plan's revision ${wrote##* }")"
    read -r _ without all <<<"$why"
    [[ -z $without ]] || note "$without of $all links have no list, for the reasons above: $2 has the others"
    return $status
}

# Reads how lists are to be written from the options, $of: the base time, $base, if they are for tc, and its device, $device.
take_form() {
    [[ ${of[as]-taprio} == taprio ]] || stop_gates "there is no form $(shown_word "${of[as]}"): the only one is taprio"
    if [[ -z ${of[as]+given} ]]; then
        [[ -z ${of[base-time]+given}${of[dev]+given} ]] || stop_gates "--base-time and --dev go with --as taprio"
        return
    fi
    base=${of[base-time]-0} device=${of[dev]-}
    [[ $base =~ ^0*([0-9]{1,19})$ ]] || stop_gates "the base time is $(shown_word "$base"), but it is a number of ns from 0 to $most_base"
    base=${BASH_REMATCH[1]}
    [[ ${#base} -lt 19 || ! $base > $most_base ]] || stop_gates "the base time is $base ns, but tc takes at most $most_base"
    [[ -z ${of[dev]+given} || $device =~ ^[A-Za-z0-9][A-Za-z0-9._-]{0,14}$ ]] ||
        stop_gates "the device is $(shown_word "$device"), but it is a name of 1 to 15 letters, digits, '.', '_' and '-'"
}

# The gate lists of a plan, printed or written, and the pairs of a list file.
do_gates() {
    local words=() base='' device='' number read_as=plan LC_ALL=C
    local -A of=()
    while (($# > 0)); do
        case $1 in
        --out | --all | --read | --as | --base-time | --dev)
            (($# > 1)) || stop_gates "there is nothing after $1"
            [[ -z ${of[${1#--}]+given} ]] || stop_gates "$1 is there twice"
            of[${1#--}]=$2
            shift 2
            ;;
        -*) stop_gates "gates has no option $1" ;;
        *) words+=("$1") && shift ;;
        esac
    done
    if [[ -n ${of[read]+given} ]]; then
        ((${#of[@]} == 1 && ${#words[@]} == 0)) || stop_gates "beside --read LIST there is nothing else"
        read_as=list
        take_plan gates "${of[read]}" && answer export read
        return
    fi
    take_form
    if [[ -n ${of[all]+given} ]]; then
        ((${#words[@]} == 1)) && [[ -z ${of[out]+given}${of[dev]+given} ]] || stop_gates "beside --all FOLDER there is a plan, and no link, --out or --dev"
        write_lists "$words" "${of[all]}" all "$base"
        return
    fi
    ((${#words[@]} == 2)) || stop_gates "gates takes a plan and a link"
    is_word "${words[1]}" || stop_gates "the link is $(shown_word "${words[1]}"), but it is a number from 0 to 4294967295"
    if [[ -n ${of[out]+given} ]]; then
        write_lists "$words" "${of[out]}" write "$base" "$device" "$number"
    else
        take_plan gates "$words" && answer export print "$base" "$device" "$number"
    fi
}

# ---- A run

# The time since the machine was started, in microseconds and exact to a hundredth of a second. It does not jump where the date is set.
now() {
    local seconds
    read -r seconds _ </proc/uptime && printf %s "$((10#${seconds/./}))0000"
}

# Where there is no terminal, a run says how far it is about every so many seconds.
quiet=10

# Ends the line of progress on a terminal.
end_progress() {
    [[ -z ${progress-} ]] || printf '\n' >&2
    progress=''
}

# Says how far the check is, and how long it takes from here on at the pace since the first answer: on a terminal after each slice, on a line that the next one
# replaces, and elsewhere now and then.
say_progress() { # PASSED ALL
    local left='' seconds time
    time=$(now)
    if [[ -z $first_passed ]] || (($1 < first_passed)); then
        first_passed=$1 first_time=$time
    elif (($1 > first_passed)); then
        seconds=$(((time - first_time) * ($2 - $1) / ($1 - first_passed) / 1000000))
        printf -v left ', %d:%02d:%02d left' $((seconds / 3600)) $((seconds / 60 % 60)) $((seconds % 60))
    fi
    printf -v left 'places %d of %d, %d %%%s' "$1" "$2" $(($2 == 0 ? 100 : $1 * 100 / $2)) "$left"
    if [[ -t 2 ]]; then
        printf '\r%s\033[K' "$left" >&2
        progress=shown
    elif ((time - said_time >= quiet * 1000000)); then
        note "$left"
        said_time=$time
    fi
}

# Prints a number of things.
counted() { # NUMBER THING
    if (($1 == 1)); then printf '1 %s' "$2"; else printf '%d %ss' "$1" "$2"; fi
}

# Sleeps until the places of one slice are due at the rate.
keep_pace() { # BEGAN BUDGET RATE
    local rest=$(($1 + $2 * 1000000 / $3 + 10000 - $(now))) # It may have begun a hundredth of a second later.
    ((rest <= 0)) || sleep "$((rest / 1000000)).$(printf %06d $((rest % 1000000)))"
}

# A number from 1 on, as it is asked for by run.
is_positive() { [[ $1 =~ ^0*([1-9][0-9]{0,9})$ ]] && ((BASH_REMATCH[1] <= 4294967295)); } # TEXT

do_run() {
    local budget='' rate='' files=() began first_passed='' first_time said_time progress='' looked steps passed all slices=0 places=0
    local plan cursor held wrote status why given=() verb=()
    while (($# > 0)); do
        case $1 in
        --budget | --rate)
            (($# > 1)) && is_positive "$2" || stop "$1 takes a number from 1 to 4294967295"
            local "${1#--}=${BASH_REMATCH[1]}"
            shift 2
            ;;
        -*) stop "run has no option $1: $(usage run)" ;;
        *) files+=("$1") && shift ;;
        esac
    done
    ((${#files[@]} == 2)) && [[ -n $budget ]] || stop "run takes a plan, a cursor and a budget: $(usage run)"
    prepare operator
    given=("${files[@]}")
    find_files "${files[@]}"
    said_time=$(now)
    while :; do
        began=$(now) || stop "cannot read /proc/uptime"
        hold_found "${files[@]}"
        if [[ -e $cursor ]]; then verb=(slice "$budget"); else verb=(start); fi
        consult "${verb[@]}"
        release
        [[ $verb != start || $status != 0 ]] || continue
        read -r looked steps passed all <<<"$why"
        [[ $looked != looked ]] || slices=$((slices + 1)) places=$((places + steps))
        ((status == 3)) || break
        say_progress "$passed" "$all"
        [[ -z $rate ]] || keep_pace "$began" "$budget" "$rate"
    done
    end_progress
    ((slices == 0)) || wrote+="looked at $(counted "$places" place) in $(counted "$slices" slice)"$'\n'
    pass_on "${files[@]}"
}
