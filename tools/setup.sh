# What ./bench, ./test and ./speed share: words to the person, the Rattle kit, Debian's packages. Sourced, not run.

say() { printf '%s: %s\n' "${0##*/}" "$*" >&2; }

give_up() {
    say "$*"
    exit 1
}

# The kit brings the command rt, the prover and the compiler; no package has it.
need_kit() {
    command -v rt >/dev/null ||
        give_up "the Rattle kit is missing: install it, so that its command 'rt' is on the PATH"
}

# need COMMAND PACKAGE: installs Debian's PACKAGE where COMMAND is not found.
need() {
    command -v "$1" >/dev/null && return
    install_package "$1" "$2"
    command -v "$1" >/dev/null || give_up "Debian's package '$2' did not bring '$1'"
}

# need_header HEADER PACKAGE: installs Debian's PACKAGE where gcc does not find the HEADER of a C library.
need_header() {
    has_header "$1" && return
    install_package "$1" "$2"
    has_header "$1" || give_up "Debian's package '$2' did not bring '$1'"
}

has_header() { gcc -E -include "$1" -x c /dev/null >/dev/null 2>&1; }

# install_package WHAT PACKAGE: WHAT is missing, and Debian's PACKAGE has it.
install_package() {
    say "'$1' is missing: installing Debian's package '$2'"
    local as_root=()
    if [[ $EUID -ne 0 ]]; then
        command -v sudo >/dev/null || give_up "'$1' is missing: install Debian's package '$2' as root"
        as_root=(sudo)
    fi
    "${as_root[@]}" apt-get update >&2 && "${as_root[@]}" apt-get install -y "$2" >&2 ||
        give_up "Debian's package '$2' could not be installed"
}

# build_bench ROOT: proves what has changed and builds ROOT/crates/bench/out/bench. A binary of an earlier proof stays where
# it was: nothing may run unless this proof went through.
build_bench() {
    need python3 python3
    python3 "$1/tools/prove.py" "$1" bench "${0##*/}" ||
        give_up "not proved, so nothing is run: the lines above say what is missing"
}

# build_reference ROOT: builds ROOT/reference/target/release/reference, the second implementation.
build_reference() {
    need rustc rustc
    need cargo cargo
    build "the second implementation (reference/)" "$1/reference" cargo build --release --offline
}

# build WHAT FOLDER COMMAND...: what the command says is shown only where it fails.
build() {
    local what=$1 folder=$2 log
    shift 2
    say "building $what"
    log=$(mktemp)
    if ! (cd "$folder" && "$@") >"$log" 2>&1 </dev/null; then
        cat "$log" >&2
        give_up "$what could not be built: the lines above say why"
    fi
    rm -f "$log"
}
