# Proves and builds the programs and the calls for C, and installs them. The command conepalhui reads this file in the repository.

# The programs that a copy needs.
all_programs=(timetable operator temporal slots export desk scribe draw)

has_rt() {
    has rt || { note "the command rt is not on the PATH: install the Rattle kit"; return 1; }
}

# One build at a time may take what rt leaves in crates/*/out. The lock is the open file 9. rt inherits it, so it lasts as long as rt runs.
lock() {
    mkdir -p .built && exec 9>.built/lock || { note "cannot write to the folder .built"; return 1; }
    flock -n 9 || { note "waiting for another build to end"; flock 9; } || { note "cannot lock .built/lock"; return 1; }
}
unlock() { exec 9>&-; }

# Prints the lines of crates.txt of a crate and of all that it uses, as NAME: USED.... They may stand there in any order.
uses() { # CRATE
    local line name word lines wanted=" $1 " before=''
    mapfile -t lines <crates.txt || return 1
    while [[ $wanted != "$before" ]]; do
        before=$wanted
        for line in "${lines[@]%%#*}"; do
            read -r name _ <<<"${line%%:*}" # A static library has that word after its name.
            [[ $line == *:* && $wanted == *" $name "* ]] || continue
            for word in ${line#*:}; do [[ $wanted == *" $word "* ]] || wanted+="$word "; done
        done
    done
    for line in "${lines[@]%%#*}"; do
        read -r name _ <<<"${line%%:*}"
        [[ $line != *:* || $wanted != *" $name "* ]] || printf '%s:%s\n' "$name" "${line#*:}"
    done
}

# Prints a hash of the sources that a crate is built from: its own and those of the crates that it uses.
sources() ( # CRATE
    LC_ALL=C
    set -o pipefail
    shopt -s globstar nullglob dotglob
    used=$(uses "$1") && files=()
    while IFS=: read -r crate _; do
        for file in crates/"$crate"/{src,specs,proofs}/**; do
            [[ ! -f $file ]] || files+=("$file")
        done
    done <<<"$used"
    ((${#files[@]} > 0)) && { printf '%s\n' "$used" && sha256sum -- "${files[@]}"; } | sha256sum
)

# Whether FILE was built from these sources. Where there is a kit, it has to be the one that built it.
is_fresh() { # FILE SOURCES
    local built kit
    { read -r built && read -r kit; } 2>/dev/null <".built/$1.stamp" || return 1
    [[ -f .built/$1 && $built == "$2" ]] && { ! has rt || [[ $kit == "$(rt version </dev/null)" ]]; }
}

# Prints how many functions, structs and enums a log of rt says are proved. rt names no crate as it ends it.
proved_in() { # LOG
    local line count=0
    while IFS= read -r line; do [[ $line != *': proved'* ]] || count=$((count + 1)); done <"$1"
    printf %d "$count"
}

# Says on the terminal, each second, how far rt is, for as long as this command runs. It does not keep the lock.
show_build() { # LOG
    local began=$SECONDS
    exec 9>&-
    while kill -0 $$ 2>/dev/null; do
        printf '\rproved %d parts, %d:%02d so far\033[K' "$(proved_in "$1")" $(((SECONDS - began) / 60)) $(((SECONDS - began) % 60)) >&2
        sleep 1
    done
}

# Builds a crate with rt, which takes minutes: says so at once, and on a terminal how far it is. What rt says goes to the log.
# A program is built by 'rt run', which proves it, links it as out/NAME and then runs it, with no input: no command of rt builds a program and
# leaves it at that. Its status is then the program's own, so a build has ended well where rt says that it runs the program. An archive is built by 'rt lib',
# for every x86-64, as its header says: rt builds for a later one where it is not told.
run_rt() { # COMMAND CRATE LOG
    local status=0 shower='' began=$SECONDS what="the program $2" time=three words=("$1")
    [[ $1 != lib ]] || words+=(--cpu x86-64)
    case $2 in
    timetable) what="the checker" ;;
    operator) what="the program for slices, moves, words, shape and conversions" ;;
    temporal) what="the program for temporal networks" time=five ;;
    slots) what="the program for new streams" time=five ;;
    export) what="the program for gate lists" time=five ;;
    desk) what="the program for explanations and surveys" time=five ;;
    scribe) what="the program for plans as text" time=five ;;
    draw) what="the program for pictures" time=five ;;
    host_c) what="the calls for C" ;;
    network_host_c) what="the calls for C of temporal networks" ;;
    esac
    note "proving and building $what first. This is done once, until the sources change, and takes about $time minutes on two idle cores. If you stop it, what is proved stays proved"
    : >"$3"
    [[ ! -t 2 ]] || { show_build "$3" & shower=$!; }
    # rt works in the crate's folder. The program ends at once, as its input is empty; where it does not, it is stopped.
    (cd "crates/$2" && exec rt "${words[@]}") >"$3" 2>&1 </dev/null || status=$?
    [[ $1 != run ]] || { status=1 && built_in "$3" "$2" && status=0; }
    if [[ -n $shower ]]; then
        { kill $shower && wait $shower; } 2>/dev/null
        printf '\r\033[K' >&2
    fi
    ((status != 0)) || note "built after $((SECONDS - began)) s"
    return $status
}

# Whether a log of 'rt run' says that the program stands. That line comes after each proof, and before all that the program writes itself.
built_in() { # LOG CRATE
    local line
    while IFS= read -r line; do [[ $line != "rt: running out/$2;"* ]] || return 0; done <"$1"
    return 1
}

# Puts a product in place as .built/FILE, with the stamp of its sources. The stamp goes first and comes last, so that a program never stands beside the stamp of another.
put_in_place() { # PRODUCT FILE SOURCES CRATE
    rm -f ".built/$2.stamp" && cp "$1" ".built/$2.new" && mv -f ".built/$2.new" ".built/$2" || return 1
    # Where the sources changed during the build there is no stamp, and the next run builds it again.
    [[ $(sources "$4" </dev/null) != "$3" ]] ||
        { { printf '%s\n' "$3" && rt version </dev/null; } >".built/$2.stamp.new" && mv -f ".built/$2.stamp.new" ".built/$2.stamp"; }
}

# Proves and builds the program NAME as .built/NAME, unless it is fresh. Another COMMAND of rt builds another PRODUCT of the crate, which is FILE there.
build() { # NAME [COMMAND PRODUCT FILE]
    local stamp command=${2-run} product=crates/$1/out/${3-$1} file=${4-$1}
    stamp=$(sources "$1" </dev/null) || stop "cannot read the sources of the crates"
    is_fresh "$file" "$stamp" && return
    has_rt && lock || exit 4
    # While this process waited, another may have built the program, and the sources may have changed.
    stamp=$(sources "$1" </dev/null) || stop "cannot read the sources of the crates"
    if ! is_fresh "$file" "$stamp"; then
        if ! run_rt "$command" "$1" ".built/$file.log"; then
            cat ".built/$file.log" >&2
            stop "the program $1 cannot be built (see above)"
        fi
        put_in_place "$product" "$file" "$stamp" "$1" || stop "the program $1 was proved, and cannot be copied to .built/$file"
    fi
    unlock
}

# After rt ci took NAME's sources as they are in SOURCES, its program stands in crates/NAME/out, proved and built by LLVM: it is taken over, and not built again.
# rt ci builds no archive, and removes those that stood there.
take_over() { # NAME SOURCES
    [[ ! -f crates/$1/out/$1 ]] || put_in_place "crates/$1/out/$1" "$1" "$2" "$1"
}

# Proves and builds the archives of the calls for C: .built/libconepalhui.a for plans, .built/libconepalhui-network.a for temporal networks.
build_library() {
    build host_c lib libhost_c.a libconepalhui.a
    build network_host_c lib libnetwork_host_c.a libconepalhui-network.a
}

about_library() {
    cat <<'END'
Proves the calls for C and builds their archives, unless they are there and their sources have not changed. It prints two
lines for each, 'archive FILE' and 'header FILE'. The archives are for x86-64, and neither needs the other:

  cc -Iinclude program.c .built/libconepalhui.a            checks of plans: include/conepalhui.h
  cc -Iinclude program.c .built/libconepalhui-network.a    temporal networks: include/conepalhui-network.h

examples/README.md has a whole program for each. Exit status: 0 built, 4 where one cannot be proved or built.
END
}

do_library() {
    local folder='' name
    (($# == 0)) || stop "library takes no argument"
    build_library
    [[ $from -ef . ]] || folder=$PWD/
    for name in conepalhui conepalhui-network; do
        printf '%s\n' "archive ${folder}.built/lib$name.a" "header ${folder}include/$name.h" || stop "cannot write to standard output"
    done
}

# ---- An installed copy

about_install() {
    cat <<'END'
Puts the following into the folder DIR, which is made if it is missing. A machine without the Rattle kit can run and link
it; on Arm that takes Debian's packages qemu-user and libc6-amd64-cross.

  bin/conepalhui                     this command, for whatever needs no kit
  lib/conepalhui                     its parts: the programs, and the scripts that run them
  lib/libconepalhui.a                the calls for C, for x86-64
  include/conepalhui.h               their header
  lib/libconepalhui-network.a        the calls for C of temporal networks, for x86-64
  include/conepalhui-network.h       their header
  lib/pkgconfig/conepalhui.pc        the flags for both: cc program.c $(pkg-config --cflags --libs conepalhui)
  share/man/man1/conepalhui.1        a man page
  share/doc/conepalhui               the pages of docs/

Programs and calls are proved and built first where their sources changed. The folder may be moved as a whole. Exit status: 0
installed, 4 where something cannot be built or written.
END
}

# Prints a text as the lines of a man page.
as_roff() { sed 's/\\/\\e/g; s/-/\\-/g; s/^[.'"'"']/\\\&&/'; }

# Prints the man page: the list of commands, and what is said of each.
man_page() { # VERSION
    local name
    printf '.TH CONEPALHUI 1 "" "Conepalhui %s"\n.SH NAME\nconepalhui \\- a verified checker of network timetables\n.SH COMMANDS\n.nf\n' "$1"
    list_commands | sed '1,2d' | as_roff
    for name in "${commands[@]%%|*}" answers; do
        printf '.fi\n.SH %s\n.nf\n' "${name^^}"
        tell_command "$name" | as_roff
    done
    printf '.fi\n'
}

# Prints what pkg-config has to know. The folder may be moved: the prefix is found from the file.
package_config() { # VERSION
    cat <<END
prefix=\${pcfiledir}/../..
includedir=\${prefix}/include
libdir=\${prefix}/lib

Name: conepalhui
Description: a verified checker of network timetables: start, slice and move; temporal networks
Version: $1
Cflags: -I\${includedir}
Libs: -L\${libdir} -lconepalhui -lconepalhui-network
END
}

# Copies a file into the folder $to, where it replaces another whole and lastingly.
put() { # SOURCE FILE [MODE]
    local file=$to/$2 new
    mkdir -p "${file%/*}" && new=$(mktemp "$file.new.XXXXXX") && cp -- "$1" "$new" && chmod "${3-644}" "$new" && sync "$new" && mv -fT "$new" "$file" ||
        { rm -f -- "${new-}"; stop "cannot write $file: not all is installed"; }
}

# Makes what is written for the copy alone, in the folder $temp: the command, the flags for pkg-config and the man page.
write_copy() {
    local version
    version=$(defined CONEPALHUI_VERSION) &&
        sed 's|^parts=tools .*|parts=../lib/conepalhui|' conepalhui >"$temp/command" && [[ $(<"$temp/command") == *$'\nparts=../lib/conepalhui\n'*$'\nmain "$@"; exit' ]] &&
        package_config "$version" >"$temp/flags" &&
        (set -o pipefail && is_installed() { true; } && called=conepalhui && . tools/help.sh && man_page "$version") >"$temp/page"
}

do_install() {
    local to=${1-} name
    (($# == 1)) && [[ -n $to && $to != -* ]] || stop "install takes a folder: $(usage install)"
    [[ $to == /* ]] || to=$from/$to
    # The command finds its parts from where it really stands.
    [[ ! -L $to/bin && ! -L $to/lib ]] || stop "$to/bin or $to/lib is a link: give the folder that it leads to"
    for name in "${all_programs[@]}"; do build "$name"; done
    build_library
    umask 022
    make_temp && write_copy || stop "cannot make the copy"
    for name in "${all_programs[@]}"; do put ".built/$name" "lib/conepalhui/$name" 755; done
    for name in help run desk; do put "tools/$name.sh" "lib/conepalhui/$name.sh"; done
    for name in conepalhui conepalhui-network; do
        put ".built/lib$name.a" "lib/lib$name.a"
        put "include/$name.h" "include/$name.h"
    done
    put "$temp/flags" lib/pkgconfig/conepalhui.pc
    for name in docs/*.md docs/changes/*.md docs/pictures/*.svg; do
        # How the sources were brought to another kit is for developers.
        [[ $name == docs/PORT.md || $name == docs/port-*.md || $name == docs/DESIGN-PASS.md || $name == docs/LOOK-BACK.md || $name == docs/design-*.md ]] || put "$name" "share/doc/conepalhui/${name#docs/}"
    done
    put "$temp/page" share/man/man1/conepalhui.1
    put "$temp/command" bin/conepalhui 755 # The last: without it nothing is run.
    printf 'installed %s\n' "$to" || stop "cannot write to standard output"
}
