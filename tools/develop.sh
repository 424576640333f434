# What developers run: the test, the comparison and the benchmark. The command conepalhui reads this file in the repository.

# ---- What a machine has to have

missing=() # Packages of Debian that are missing.

# Notes the package that has a command or a file, where that is missing.
need() { # COMMAND-OR-FILE PACKAGE
    has "$1" || missing+=("$2")
}

# The archive of the calls for C is for x86-64. On Arm it is linked by a compiler for that processor.
need_c() {
    need cc gcc
    need /usr/include/stdio.h libc6-dev
    if [[ $(uname -m) == aarch64 ]]; then
        need x86_64-linux-gnu-gcc gcc-x86-64-linux-gnu
        need "$cross/lib/libc.a" libc6-dev-amd64-cross
    fi
}

# Ends where something is missing. No command but the test installs anything.
stop_if_missing() {
    ((${#missing[@]} == 0)) || stop "packages are missing, and this installs them: apt-get install ${missing[*]}"
}

# What the tests take. What is missing is installed where we may: a test that goes without it fails by itself.
install_missing() {
    need python3 python3 # A test may be written in it.
    need_c # tests/host.test compiles the example of a C host,
    need g++ g++ # and the header as C++.
    need rustc rustc # The plain checker is written in it.
    need pkg-config pkg-config # tests/install.test links with its flags.
    need tc iproute2 # tests/taprio.test has it read gate lists.
    need rsvg-convert librsvg2-bin # tests/draw.test has it render pictures.
    case $(uname -m) in
    x86_64) need strace strace ;; # On Arm the emulator traces system calls itself.
    aarch64)
        need qemu-x86_64 qemu-user
        need "$cross/lib64/ld-linux-x86-64.so.2" libc6-amd64-cross
        ;;
    esac
    ((${#missing[@]} > 0)) || return 0
    if ((EUID == 0)) && has apt-get; then
        note "packages are missing, so they are installed: ${missing[*]}"
        apt-get -q update >&2
        DEBIAN_FRONTEND=noninteractive apt-get -q -y --no-install-recommends install "${missing[@]}" >&2
    else
        note "packages are missing, and are not installed: ${missing[*]}"
    fi
}

# ---- The test. Each of these adds to $passed and $failed, which belong to do_test.

# Makes the folder $temp, which is removed at the end.
make_temp() {
    temp=$(mktemp -d) || { note "cannot make a temporary folder"; return 1; }
    trap 'rm -rf -- "$temp"' EXIT
}

# Runs a test, and leaves what it said, its status and how long it took in $temp, under its number.
run_apart() { # NUMBER COMMAND...
    local number=$1 began=$SECONDS status=0
    shift
    "$@" >"$temp/$number.said" 2>&1 || status=$?
    echo "$status $((SECONDS - began))" >"$temp/$number.new" && mv "$temp/$number.new" "$temp/$number.ended"
}

# Tells of a test that has run. What it said is shown only where it failed.
tell() { # NUMBER NAME
    local status seconds line
    if [[ -e $temp/$1.ended ]] && read -r status seconds <"$temp/$1.ended" && ((status == 0)); then
        passed=$((passed + 1))
        printf 'ok %s (%d s)\n' "$2" "$seconds"
    else
        failed=$((failed + 1))
        printf 'FAILED %s\n' "$2"
        while IFS= read -r line || [[ -n $line ]]; do printf '    %s\n' "$line"; done <"$temp/$1.said"
    fi
}

try() { # NAME COMMAND...
    run_apart 0 "${@:2}"
    tell 0 "$1"
}

# Runs tests, two at a time. Each is told of once it and those before it have ended.
try_all() { # FILE...
    local files=("$@") started=0 running=0 told=0
    trap 'trap "" INT; wait; echo interrupted; exit 130' INT # The tests hear it too, and clean up.
    while ((told < $#)); do
        if ((started < $# && running < 2)); then
            run_apart $((started + 1)) "./${files[started]}" &
            started=$((started + 1)) running=$((running + 1))
            continue
        fi
        wait -n
        running=$((running - 1))
        while ((told < started)) && [[ -e $temp/$((told + 1)).ended || $running == 0 ]]; do
            tell $((told + 1)) "${files[told]}"
            told=$((told + 1))
        done
    done
}

# Runs rt ci and adds its counts. Where rt fails and counts no failure, or counts nothing, that is one failure. So is an edit of crates/*/must-fail that could not be
# put to the prover: rt passes it as BAD EDIT, and says how many there are on its line 'rt: ok'.
prove() {
    local status=none last='' line ok='' fault='' name
    local -A before=()
    if lock; then
        for name in "${all_programs[@]}" cases; do before[$name]=$(sources "$name" </dev/null); done
        # It chooses itself how much runs side by side, by processors and memory: RT_JOBS would have it look at no memory.
        env -u RT_JOBS rt ci | tee "$temp/ci"
        status=${PIPESTATUS[0]}
        export EDITS_SAID=$temp/ci # tests/edits.test reads there why each edit was refused.
        last=$(tail -n 1 "$temp/ci")
        while IFS= read -r line; do [[ $line != 'rt: ok; '* ]] || ok=$line; done <"$temp/ci"
        # The tests run the programs that this run proved.
        if ((status == 0)); then
            for name in "${!before[@]}"; do [[ -z ${before[$name]} ]] || take_over "$name" "${before[$name]}"; done
        fi
        unlock
    fi
    if [[ $status == none ]]; then
        fault="it was not run"
    elif [[ $last =~ ^([0-9]{1,9})' passed, '([0-9]{1,9})' failed'$ ]]; then
        local good=$((10#${BASH_REMATCH[1]})) bad=$((10#${BASH_REMATCH[2]}))
        passed=$((passed + good)) failed=$((failed + bad))
        if ((bad == 0 && status != 0)); then
            fault="it ended with status $status although it counted no failure"
        elif ((bad == 0 && good == 0)); then
            fault="it counted nothing"
        elif ((bad == 0)) && [[ -z $ok ]]; then
            fault="it ended with status 0 and has no line 'rt: ok'"
        elif [[ $ok =~ ,\ ([0-9]+)' bad;' ]]; then
            fault="${BASH_REMATCH[1]} edits of crates/*/must-fail are bad"
        fi
    else
        fault="it ended with status $status and its last line is no count"
    fi
    if [[ -n $fault ]]; then
        failed=$((failed + 1))
        printf 'FAILED rt ci: %s\n' "$fault"
    fi
}

about_test() {
    cat <<'END'
Proves every crate with 'rt ci', which also holds the sources to their layout, tries each edit of crates/*/must-fail and runs each program as two
compilers build it; then runs each tests/*.test, two at a time. What rt ci passed on this machine is kept, and only what changed is proved again;
that the cases tell an edit apart is noted in ~/.cache/conepalhui, and run again where something changed on which it rests.
The last line is 'N passed, M failed'. The exit status is 0 only where something passed and nothing failed.
END
}

do_test() {
    local passed=0 failed=0 file files=()
    (($# == 0)) || stop "test takes no argument"
    exec </dev/null
    if ! has_rt || ! make_temp; then
        echo '0 passed, 1 failed'
        return 1
    fi
    install_missing
    prove
    # What tests/edits.test told apart is noted outside the checkout, so that another one need not run it again.
    [[ -z ${XDG_CACHE_HOME-}${HOME-} ]] || export EDITS_KEPT=${EDITS_KEPT-${XDG_CACHE_HOME:-$HOME/.cache}/conepalhui}
    # Two tests may want a program at once. Where one cannot be built, the tests that run it fail.
    ((failed > 0)) || (for file in "${all_programs[@]}"; do build "$file"; done) >/dev/null 2>&1
    [[ ! -e tests/edits.test ]] || files=(tests/edits.test) # The longest begins first: the others run beside it.
    for file in tests/*.test; do
        # Where there is no test the pattern stands for itself.
        [[ $file == tests/edits.test || ! -e $file && ! -L $file ]] || files+=("$file")
    done
    try_all "${files[@]}"
    printf '%d passed, %d failed\n' "$passed" "$failed"
    ((failed == 0 && passed > 0))
}

# ---- The comparison and the benchmark

# Sets each named number from arguments of the form --NAME NUMBER.
numbers_from() { # NAMES ARGUMENT...
    local names=$1
    shift
    while (($# > 0)); do
        [[ " $names " == *" ${1#--} "* && $1 == --* ]] || stop "unknown argument '$1'"
        [[ ${2-} =~ ^[0-9]{1,18}$ ]] || stop "$1 takes a number"
        printf -v "${1#--}" %s "$2"
        shift 2
    done
}

about_compare() {
    cat <<'END'
Makes calls for C on plans, cursors and buffers taken by chance, and compares each result and every byte of lent memory
with a plain checker in Rust. Each wrong checker of compare/wrong.rs has to be caught. --calls N says how many calls
are made (200,000), and --seed N gives other ones (1). Exit status: 0 only where nothing differs and all are caught.
With --networks N it compares the calls on so many networks instead, with a plain solver (compare/network.rs), and
catches the wrong ones of compare/network_wrong.rs. With --admissions N it compares the admissions of so many streams,
with a search that tries each offset (compare/admit.rs) and one that jumps, and catches those of compare/admit_wrong.rs.
With --rechecks N it moves legs of so many tables and compares each recheck, with a plain one (compare/recheck.rs) and,
where the table was accepted before, with a whole check of the moved table; it catches those of compare/recheck_wrong.rs.
With --gates N it asks for the gate lists of links of so many tables, and compares each with one that is laid out instant by
instant (compare/gates.rs) or, where the cycle is long, with one by its holds; it catches those of compare/gates_wrong.rs.
With --explained N it asks so many tables where legs first meet, for margins, for nearest offsets and for all violated places,
and compares each with one that walks repeats and tries offsets (compare/explain.rs); it catches those of
compare/explain_wrong.rs.
END
}

do_compare() {
    local calls=200000 networks=0 admissions=0 rechecks=0 gates=0 explained=0 seed=1 emulator c_compiler
    numbers_from 'calls networks admissions rechecks gates explained seed' "$@"
    . compare/build.sh
    if ((networks > 0)); then
        build_network_comparison
        .built/compare/network "$seed" "$networks" "${emulator[@]}" .built/compare/network-driver
    elif ((admissions > 0)); then
        build_admit_comparison
        .built/compare/admit "$seed" "$admissions" "${emulator[@]}" .built/compare/admit-driver
    elif ((rechecks > 0)); then
        build_recheck_comparison
        .built/compare/recheck "$seed" "$rechecks" "${emulator[@]}" .built/compare/recheck-driver
    elif ((gates > 0)); then
        build_gates_comparison
        .built/compare/gates "$seed" "$gates" "${emulator[@]}" .built/compare/gates-driver
    elif ((explained > 0)); then
        build_explain_comparison
        .built/compare/explain "$seed" "$explained" "${emulator[@]}" .built/compare/explain-driver
    else
        build_comparison
        compare/judge compare "$seed" "$calls" "${emulator[@]}" .built/compare/driver
    fi
}

about_bench() {
    cat <<'END'
Times the check beside two checkers in Rust, in one process and in turns, on the accepted plans of the folder plans: a
whole check, and resumed calls with the budgets 0 and 300. All three have to give the same answers.

  proved   the call for C
  plain    what one writes in an hour: each frame is worked out once, and two loops go over all pairs of legs
  same     the algorithm of the proved check: the legs of each link are chained, and a leg remembers its last divisor

Both take Euclid's divisor. A ratio above 1 says that the proved code took longer than the side before it. The time of a
pair that shares a link is what a whole check takes beyond a call with budget 0, divided by the number of these pairs.
A recheck of the first leg, of a middle one and of the last is timed beside a plain one, and beside the proved whole check.
Then come the greatest common divisors of a whole check: how many it takes, the time of one by each method of
compare/divisors.rs, and for the method in use which part of the proved check they take.

Then it times admissions beside two plain ones, which check by these two checkers and find the offset by jumps: to each
accepted plan, without its last streams, the last of these again, with the longest frame, and with a deadline that no
offset keeps; and to two plans on which the search goes on for long, in three rounds at the most.

Then it times gate lists beside a plain one, which sorts all holds of a cycle, and beside the proved whole check, with which
each list begins: that of the fullest link of each accepted plan, and six that take long or are refused, in three rounds at
the most: links that are held all the time, by up to 509 legs in a cycle of up to 999,323,136 ns, the most legs, 1,024 pairs,
and too many.

At last it times the solver of networks beside a plain one, on three networks of the largest size. --rounds N says how
many rounds are made (21); medians are given. On Arm all sides run under Debian's emulator.
END
}

do_bench() {
    local rounds=21 emulator c_compiler
    numbers_from rounds "$@"
    ((rounds > 0)) || stop "--rounds takes a number from 1 up"
    . compare/build.sh
    build_benchmark
    "${emulator[@]}" .built/compare/bench "$rounds" plans/*.plan &&
        "${emulator[@]}" .built/compare/admit-bench "$rounds" plans/*.plan &&
        "${emulator[@]}" .built/compare/gates-bench "$rounds" plans/*.plan &&
        "${emulator[@]}" .built/compare/network-bench "$rounds"
}
