# A planner's desk: why a place is violated, every violated place, at once or in a survey over a night, where a plan is thin, plans as text, and pictures. The command conepalhui reads this file.

# ---- Why

# After a violated verdict: says how to see why. A plan that came by standard input has no name.
hint() { # VERDICT [PLAN]
    local leg place plan=${2-}
    [[ ${1:0:200} =~ violated' '([0-9]+)' '([0-9]+)' '[a-z] ]] || return 0
    leg=${BASH_REMATCH[1]} place=${BASH_REMATCH[2]}
    [[ $plan != -* ]] || plan=./$plan
    if [[ -n $plan ]]; then printf -v plan %q "$plan"; else plan=PLAN; fi
    printf -v leg '%q explain %s %s %s' "$0" "$plan" "$leg" "$place"
    note "why: $leg"
}

# The path of a plan beside which its names stand, $path. A plan that came by standard input has none, and beside this path there are none.
find_names() { # [PLAN]
    path=/dev/null
    (($# == 0)) || { path=$(real_path "$1") && path=${path%$'\n.'}; } || stop "cannot find the plan $1"
    [[ ! -e $path.names || -f $path.names ]] || { note "$path.names is no file: numbers are used in place of names" && path=/dev/null; }
    find_text_names
}

# Leaves out names whose path is not UTF-8: they cannot be opened.
find_text_names() {
    is_text "$path" && return
    [[ ! -e $path.names ]] || note "the path $(printf %q "$path.names") is not UTF-8: numbers are used in place of names"
    path=/dev/null
}

do_explain() {
    local path file number asked=first
    (($# >= 1 && $# <= 3)) || stop "explain takes a plan, and perhaps a cursor, or a leg and a place: $(usage explain)"
    if (($# == 2)); then
        find_input cursor "$2"
        need_text "$file"
        asked=cursor
    elif (($# == 3)); then
        is_word "$2" || stop "the leg is $(shown_word "$2"), but it is a number from 0 to 4294967295"
        is_word "$3" || stop "the place is $(shown_word "$3"), but it is a number from 0 to 4294967295"
        asked=given
        set -- "$1" "$((10#$2))" "$((10#$3))"
    fi
    find_names "$1"
    take_plan explain "$1"
    if [[ $asked == cursor ]]; then set -- "$1" "$file"; fi
    answer desk "$asked" "$path" "${@:2}"
}

do_slack() {
    local path hinted=${1-}
    find_names "$@"
    take_plan slack "$@" && answer desk slack "$path"
}

# ---- Every violated place

do_check() {
    local word all='' files=() hinted
    for word; do
        case $word in
        --all) all=--all ;;
        --*) stop "check has no option $word: $(usage check)" ;;
        *) files+=("$word") ;;
        esac
    done
    take_plan check "${files[@]}"
    hinted=${files-}
    if [[ -n $all ]]; then answer desk all; else answer timetable; fi
}

# ---- A survey: a check in slices that notes each violated place and goes on

# The first line of the notes. A cursor is three numbers: whatever takes these bytes for one finds some left over.
notes_mark='conepalhui notes of a survey, no cursor'

# Finds the files $plan and $cursor, which has the notes' name.
find_plan_and_notes() { # PLAN NOTES
    local first=''
    [[ -n $1 && -n $2 ]] || stop "the plan and the notes are paths, and one of them is empty"
    plan=$(real_path "$1") || stop "cannot find the plan $1"
    cursor=$(real_path "$2") || stop "cannot find the folder of the notes $2"
    plan=${plan%$'\n.'} cursor=${cursor%$'\n.'}
    stop_at_kept_name "$plan"
    stop_at_kept_name "$cursor"
    [[ -f $plan ]] || stop "there is no plan file $1"
    [[ ! $plan -ef $cursor ]] || stop "the plan $1 and the notes $2 are one file"
    [[ -e $cursor ]] || return 0
    [[ -f $cursor && -r $cursor && -w $cursor ]] || stop "the notes $2 are not a file that can be read and written"
    { IFS= LC_ALL=C read -r -n 100 first <"$cursor"; } 2>/dev/null
    [[ $first == "$notes_mark" ]] || stop "$2 is not notes of a survey, and is never replaced: give the notes another name"
}

# Prints the sum of what stands on standard input.
sum_of() {
    local sum
    sum=$(sha256sum) && printf %s "${sum%% *}"
}

# Reads the notes: of which plan they are, $of_plan, which places they have, $noted and $count, and where the survey stands, $leg and $place. What was altered is not believed.
read_notes() { # NOTES
    local text last edition revision
    text=$(<"$cursor") || stop "cannot read the notes $1"
    last=${text##*$'\n'}
    [[ $last == "sum $(printf '%s\n' "${text%$'\n'*}" | sum_of)" ]] || stop "the notes $1 do not fit their sum: they were altered, or are not whole. Remove them, and begin anew"
    text=${text%$'\n'*}
    { read -r _ && read -r _ edition _ revision && read -r _ of_plan && read -r _ leg place _ count; } <<<"$text"
    [[ $edition == "$(defined CONEPALHUI_EDITION)" ]] || of_plan="a plan, judged by edition $edition of the rules"
    noted=''
    [[ $leg.$place.$count =~ ^[0-9]{1,10}\.[0-9]{1,10}\.[0-9]{1,10}$ ]] || stop "the notes $1 are not whole: remove them, and begin anew"
    ((count == 0)) || noted=${text#*$'\n'*$'\n'*$'\n'*$'\n'}$'\n'
}

# Writes the notes whole and lastingly.
write_notes() {
    local text new=$cursor.conepalhui-new
    printf -v text '%s\n' "$notes_mark" "edition $(defined CONEPALHUI_EDITION) revision $revision" "plan $of_plan" "stands $leg $place violated $count"
    text+=$noted
    written="sum $(printf %s "$text" | sum_of)"
    rm -f -- "$new" && printf '%s%s\n' "$text" "$written" >"$new" && sync "$new" && mv -fT -- "$new" "$cursor" && sync "${cursor%/*}/" ||
        stop "cannot write the notes $cursor"
}

# Looks at the next places of the plan as it is now. Where it is another plan than the notes are of, the survey begins anew. The plan is read once, into a file that has no name any more, so that
# what is looked at is what was summed up.
survey_on() { # NOTES BUDGET
    local name copy sum text
    status='' why=''
    name=$(mktemp) && exec {copy}<>"$name" && rm -f -- "$name" && cat -- "$plan" >&"$copy" && sum=$(sum_of <"/dev/fd/$copy") || stop "cannot read the plan $plan"
    if [[ -n $written ]]; then
        text=$(<"$cursor") && [[ ${text##*$'\n'} == "$written" ]] || stop "the notes $1 were removed or written by another call meanwhile: this survey ends"
    fi
    if [[ -z $of_plan && -e $cursor ]]; then
        read_notes "$1"
        [[ $of_plan == "$sum" || -n $anew ]] ||
            stop "the notes $1 are of another plan, or of this one before it was changed. To drop them and begin anew: --anew. To keep them: give other notes a name of their own"
    elif [[ -n $of_plan && $of_plan != "$sum" ]]; then
        end_progress
        note "the plan was changed: the survey begins anew"
    fi
    [[ $of_plan == "$sum" ]] || of_plan=$sum leg=0 place=0 count=0 noted=''
    wrote=$(run_program desk part "$leg" "$place" "$2" <"/dev/fd/$copy" && printf .) || stop "the program desk ended with status $?"
    exec {copy}>&-
    take_status || [[ $why == over* || $why == stands* ]] || stop "the program desk gave no whole answer"
}

do_survey() {
    local budget='' rate='' anew='' files=() began first_passed='' first_time said_time progress='' of_plan='' leg=0 place=0 count=0 noted='' passed all more written=''
    local plan cursor held wrote status why revision found_plan found_notes
    while (($# > 0)); do
        case $1 in
        --budget | --rate)
            (($# > 1)) && is_positive "$2" || stop "$1 takes a number from 1 to 4294967295"
            local "${1#--}=${BASH_REMATCH[1]}"
            shift 2
            ;;
        --anew) anew=--anew && shift ;;
        -*) stop "survey has no option $1: $(usage survey)" ;;
        *) files+=("$1") && shift ;;
        esac
    done
    ((${#files[@]} == 2)) && [[ -n $budget ]] || stop "survey takes a plan, a name for the notes and a budget: $(usage survey)"
    prepare desk
    find_plan_and_notes "${files[@]}"
    found_plan=$plan found_notes=$cursor
    said_time=$(now)
    while :; do
        began=$(now) || stop "cannot read /proc/uptime"
        hold
        find_plan_and_notes "${files[@]}"
        [[ $plan == "$found_plan" && $cursor == "$found_notes" ]] || stop "a name led to another file before and now: no answer is given. Give the files that are meant"
        keep_private
        survey_on "${files[1]}" "$budget"
        if ((status == 2)); then
            release
            printf '%s' "$wrote" || stop "cannot write to standard output"
            return 2
        fi
        noted+=$wrote
        read -r _ more revision leg place passed all <<<"$why"
        count=$((count + more))
        write_notes
        release
        anew=''
        ((status == 3)) || break
        say_progress "$passed" "$all"
        [[ -z $rate ]] || keep_pace "$began" "$budget" "$rate"
    done
    end_progress
    printf '%s' "$noted" || stop "cannot write to standard output"
    if ((count == 0)); then
        printf 'nothing violated, places %s of %s\nrevision %s\n' "$all" "$all" "$revision" || stop "cannot write to standard output"
        return 0
    fi
    printf 'violated %d of %d places\nrevision %s\n' "$count" "$all" "$revision" || stop "cannot write to standard output"
    hint "$noted" "${files[0]}"
    return 1
}

# ---- Plans as text

# Prints the text of a plan, with the names that stand beside it.
do_decode() {
    local path
    find_names "$@"
    take_plan decode "$@" && answer scribe decode "$path"
}

# Makes the text that encode is given its standard input. What is made is as private as the text, where that is a file.
take_text() { # TEXT
    local file plan
    if [[ $1 == - ]]; then
        [[ -e /dev/fd/0 ]] || stop "standard input is closed: the text cannot be read"
        [[ ! -t 0 ]] || note "the text is read from this terminal"
        return
    fi
    find_input text "$1"
    exec <"$file" || stop "the text $file may not be read"
    [[ ! -f $file ]] || { plan=$file && keep_private; }
}

# Finds the plan file that is written, $cursor, and sees to it that its name and that of its names are free.
find_new_plan() { # PLAN
    find_new "$1"
    [[ ! -e $cursor.names && ! -L $cursor.names ]] || stop "$1.names is there already, and is never replaced: give the plan another name, or remove it"
}

# The same for a plan file that may be there. Links are followed, so that a file is replaced and not the link to it.
find_plan_to_replace() { # PLAN
    [[ -n $1 ]] || stop "the plan is a path, and it is empty"
    cursor=$(real_path "$1") || stop "cannot find the folder of the plan $1"
    cursor=${cursor%$'\n.'}
    stop_at_kept_name "$cursor"
    [[ ! -e $cursor || -f $cursor && -w $cursor ]] || stop "$1 is not a file that can be written"
    [[ ! -L $cursor.names && (-f $cursor.names || ! -e $cursor.names) ]] || stop "$cursor.names is no file, and the names of the plan are kept there: remove it, or give the plan another name"
}

# Whether what a program wrote, on standard input, ends with the status 0.
ends_well() {
    local line last=''
    while IFS= read -r line; do last=$line; done
    [[ $last == 'status 0' ]]
}

# Asks the program scribe for the plan of the text on standard input.
consult_scribe() { # PLAN [--replace]
    wrote=$(run_program scribe encode "$cursor" "${@:2}" && printf .) && take_status && return
    stop "the program scribe gave no whole answer: $1 is as it was, or was written whole. Look at it"
}

# Writes a plan file from its text, and the names beside it.
do_encode() {
    local word plan cursor found held wrote status why had_names='' find=find_new_plan replace=() files=()
    for word; do
        case $word in
        --replace) find=find_plan_to_replace replace=(--replace) ;;
        -?*) stop "encode has no option $word: $(usage encode)" ;;
        *) files+=("$word") ;;
        esac
    done
    ((${#files[@]} == 2)) || stop "encode takes a text and a name for the plan: $(usage encode)"
    prepare scribe
    take_text "${files[0]}"
    "$find" "${files[1]}"
    need_text "$cursor"
    [[ ! /dev/fd/0 -ef $cursor && ! /dev/fd/0 -ef $cursor.names ]] ||
        stop "the text ${files[0]} would be replaced by what is made of it: give the plan another name, or the text"
    found=$cursor plan=$cursor
    hold
    "$find" "${files[1]}"
    [[ $cursor == "$found" ]] || stop "the name ${files[1]} led to $found and leads to $cursor now: nothing was written. Give the name that is meant"
    [[ ! -e $cursor ]] || run_program scribe decode /dev/null <"$cursor" 2>/dev/null | ends_well ||
        stop "${files[1]} is there, and is no plan file: it is not replaced"
    [[ ! -e $cursor.names ]] || had_names=1
    consult_scribe "${files[1]}" "${replace[@]}"
    release
    [[ -z $had_names || -e $cursor.names ]] || note "$cursor.names was removed: the new text has no names"
    printf '%s' "$wrote" || stop "cannot write to standard output$( ((status != 0)) || printf %s ", but ${files[1]} is written")"
    [[ $wrote != 'encoded links 0 streams 0 legs 0 '* ]] || note "${files[1]} IS EMPTY: the text has no link, stream or leg, and an empty plan is accepted"
    ((status != 0)) || note "${files[1]} is written as the text has it, and is not judged. To check it: $(shown_call check "${files[1]}")"
    return $status
}

# ---- Pictures

# Ends a call whose arguments say nothing of use.
stop_draw() { stop "$1: '$called help draw' says what is needed"; } # SENTENCE

# Writes a picture to a new file. A signal that comes meanwhile is heard when the program has ended, and then nothing stays of what was written.
write_picture() { # PLAN NEW KIND NUMBER FROM TO
    local plan cursor held wrote status='' why name signal='' path
    prepare draw
    hold_old_and_new "$1" "$2"
    path=$plan
    find_text_names
    keep_private
    for name in HUP INT TERM; do trap "signal=$name" $name; done
    drop_new || give_up "cannot remove $cursor.conepalhui-new, and what is written has this name first"
    wrote=$(run_program draw "${@:3}" "$path" <"$plan" && printf .)
    [[ -z $signal ]] && take_status || give_up "the program draw gave no whole answer: nothing was written"
    if ((status == 0)); then
        printf '%s' "$wrote" >"$cursor.conepalhui-new" && sync -- "$cursor.conepalhui-new" || give_up "cannot write $2: nothing was written"
        name_new "$2"
        wrote="written $3 $4 bytes ${#wrote}"$'\n'
    fi
    trap - HUP INT TERM
    release
    printf '%s' "$wrote" || stop "cannot write to standard output$( ((status == 2)) || printf %s ", but $2 is written")"
    return $status
}

# Reads a number from an option, $number.
take_number() { # OPTION WHAT
    is_word "${of[$1]}" || stop_draw "$2 is $(shown_word "${of[$1]}"), but it is a number from 0 to 4294967295"
}

# A picture of a link or of a stream, printed or written.
do_draw() {
    local words=() kind number begins='' ends='' path LC_ALL=C
    local -A of=()
    while (($# > 0)); do
        case $1 in
        --link | --stream | --from | --to | --out)
            (($# > 1)) || stop_draw "there is nothing after $1"
            [[ -z ${of[${1#--}]+given} ]] || stop_draw "$1 is there twice"
            of[${1#--}]=$2
            shift 2
            ;;
        -*) stop_draw "draw has no option $1" ;;
        *) words+=("$1") && shift ;;
        esac
    done
    ((${#words[@]} == 1)) || stop_draw "draw takes a plan"
    [[ -n ${of[link]+given} || -n ${of[stream]+given} ]] || stop_draw "there is neither --link nor --stream"
    [[ -z ${of[link]+given} || -z ${of[stream]+given} ]] || stop_draw "--link stands beside --stream, and only one of the two may be there"
    kind=link
    [[ -n ${of[link]+given} ]] || kind=stream
    [[ $kind == link || -z ${of[from]+given}${of[to]+given} ]] || stop_draw "--from and --to go with --link"
    [[ -z ${of[from]+given} ]] || { take_number from "the beginning" && begins=$((10#$number)); }
    [[ -z ${of[to]+given} ]] || { take_number to "the end" && ends=$((10#$number)); }
    [[ -z $ends ]] || ((${begins:-0} < ends)) || stop_draw "the stretch begins at ${begins:-0} ns and ends at $ends ns, but it has to end later"
    take_number $kind "the $kind"
    if [[ -n ${of[out]+given} ]]; then
        write_picture "$words" "${of[out]}" $kind "$number" "$begins" "$ends"
        return
    fi
    path=$words # Names stand beside the plan.
    [[ $path == /* ]] || path=$from/$path
    find_text_names
    take_plan draw "$words" && answer draw $kind "$number" "$begins" "$ends" "$path"
}
