# What the scripts share. A script sets `me` to its name and reads this file; it then stands at the top of the repository.
# shellcheck shell=bash
cd "$(dirname "${BASH_SOURCE[0]}")/.."

archive=target/staticlib/librepository.a
dayrun=target/bin/dayrun

declare -A needed_for=(
    [rt]='the proofs and the core'
    [cargo]='the Rust hosts, daytext and the bench'
    [gcc]='the C host'
    [g++]='the C header as C++'
    [python3]='the scripts about imports, code lists and PROMISES.md'
    [valgrind]='counting instructions'
)

# fail SENTENCE: ends the script
fail() {
    printf '%s: %s\n' "$me" "$1" >&2
    exit 1
}

# say SENTENCE: tells what the script does next
say() {
    printf '%s: %s\n' "$me" "$1"
}

# need COMMAND..: ends the script where a command is missing
need() {
    local command
    for command; do
        command -v "$command" >/dev/null 2>&1 || fail "$command is missing; it is needed for ${needed_for[$command]}"
    done
}

# need_file FILE COMMAND: ends the script where a file is missing that the command makes
need_file() {
    [ -f "$1" ] || fail "$1 is missing; '$2' makes it"
}

# need_archive: ends the script where the core's library is missing
need_archive() {
    need_file "$archive" 'bash scripts/build'
}

# need_dayrun: ends the script where the program dayrun is missing
need_dayrun() {
    need_file "$dayrun" 'bash scripts/build'
}

# build PROJECT WORDS..: builds a Rust project into its own target/
build() {
    need cargo
    CARGO_TARGET_DIR=$1/target cargo build --quiet --offline --locked --manifest-path "$1/Cargo.toml" "${@:2}" ||
        fail "$1 could not be built"
}
