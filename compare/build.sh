# Builds the drivers of the comparisons, and the benchmarks, in .built/compare. The command conepalhui reads this file and gives it
# its own functions. They need the archives of the calls for C, which are for x86-64: so is what is linked with them. The judge,
# which the comparison asks, is for this processor; compare/judge builds it. So are the comparisons of networks, admissions,
# rechecks, gate lists and of what explains a plan.

rust_target=x86_64-unknown-linux-gnu

# Sets $emulator to what has to stand before a linked program of the comparison: nothing on x86-64.
set_emulator() {
    case $(uname -m) in
    x86_64) emulator=() ;;
    aarch64) emulator=(qemu-x86_64) ;;
    *) stop "the calls for C run on x86_64 and aarch64, and this processor is $(uname -m)" ;;
    esac
}

# Sets $c_compiler to a compiler of C for x86-64, and $emulator.
find_c() {
    set_emulator
    need_c
    stop_if_missing
    if ((${#emulator[@]} == 0)); then c_compiler=cc; else c_compiler=x86_64-linux-gnu-gcc; fi
}

# Builds NAME from its sources unless it is newer than all of them. The command makes the file that is its last word.
make_if_old() { # NAME SOURCES... -- COMMAND...
    local made=.built/compare/$1 source old=0
    shift
    [[ -e $made ]] || old=1
    while [[ $1 != -- ]]; do
        source=$1
        shift
        [[ $source -ot $made ]] || old=1
    done
    shift
    ((old == 0)) && return
    mkdir -p .built/compare && "$@" "$made.new" && mv -f "$made.new" "$made" || stop "$made cannot be built (see above)"
}

# Builds a driver, which makes calls for C, and the library that it takes.
build_driver() { # NAME SOURCE LIBRARY
    build_library
    need rustc rustc
    find_c
    make_if_old "$1" ".built/lib$3.a" "include/$3.h" "$2" compare/*.h -- \
        "$c_compiler" -O2 -static -Iinclude "$2" ".built/lib$3.a" -o
}

build_comparison() { build_driver driver compare/driver.c conepalhui; }

# The comparison of networks, and its driver.
build_network_comparison() {
    build_driver network-driver compare/network_driver.c conepalhui-network
    make_if_old network compare/network*.rs compare/{chance,driver,fail,report}.rs -- \
        rustc --edition 2021 -O compare/network_compare.rs -o
}

# The comparison of admissions, and its driver.
build_admit_comparison() {
    build_driver admit-driver compare/admit_driver.c conepalhui
    make_if_old admit compare/*.rs plans/*.plan -- rustc --edition 2021 -O compare/admit_compare.rs -o
}

# The comparison of rechecks, and its driver.
build_recheck_comparison() {
    build_driver recheck-driver compare/recheck_driver.c conepalhui
    make_if_old recheck compare/*.rs plans/*.plan -- rustc --edition 2021 -O compare/recheck_compare.rs -o
}

# The comparison of gate lists, and its driver.
build_gates_comparison() {
    build_driver gates-driver compare/gates_driver.c conepalhui
    make_if_old gates compare/*.rs plans/*.plan -- rustc --edition 2021 -O compare/gates_compare.rs -o
}

# The comparison of the calls that explain a plan, and its driver.
build_explain_comparison() {
    build_driver explain-driver compare/explain_driver.c conepalhui
    make_if_old explain compare/*.rs plans/*.plan -- rustc --edition 2021 -O compare/explain_compare.rs -o
}

# Prints a compiler of Rust that has the library of x86-64.
rust_for_x86_64() {
    local rust library
    for rust in rustc /usr/bin/rustc; do
        library=$("$rust" --print target-libdir --target "$rust_target" 2>/dev/null) || continue
        compgen -G "$library/libstd-*.rlib" >/dev/null && printf '%s\n' "$rust" && return
    done
    return 1
}

make_benchmark() { # NAME LIBRARY SOURCE
    make_if_old "$1" ".built/lib$2.a" compare/*.rs plans/*.plan -- "$rust" --edition 2021 -C opt-level=3 --target "$rust_target" \
        -C linker="$c_compiler" -L native=.built -l "static=$2" "$3" -o
}

# All sides of the benchmarks are for x86-64. On Arm that takes Debian's packages for two processors and its emulator.
build_benchmark() {
    local rust c_library=/usr/lib/x86_64-linux-gnu/libc.so
    build_library
    find_c
    if ((${#emulator[@]} > 0)) && ! { rust_for_x86_64 && has qemu-x86_64 && has "$c_library"; } >/dev/null; then
        stop "packages are missing, and this installs them: dpkg --add-architecture amd64 && apt-get update &&" \
            "apt-get install rustc libstd-rust-dev:amd64 libc6-dev:amd64 qemu-user"
    fi
    rust=$(rust_for_x86_64) || stop "there is no compiler of Rust for x86-64: apt-get install rustc"
    make_benchmark bench conepalhui compare/bench.rs
    make_benchmark admit-bench conepalhui compare/admit_bench.rs
    make_benchmark gates-bench conepalhui compare/gates_bench.rs
    make_benchmark network-bench conepalhui-network compare/network_bench.rs
    ((${#emulator[@]} == 0)) || emulator=(qemu-x86_64)
}
