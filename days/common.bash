# What check, make and show share, beside what all scripts do.
# shellcheck shell=bash
source "$(dirname "${BASH_SOURCE[0]}")/../scripts/common.bash"

daytext=host/target/release/daytext

# Builds the tool that turns a day's text into bytes and back.
build_daytext() {
    build host --release -p daytext
}

# stored NAME: sets bytes and report, the files in which the day NAME is kept. Those of verdicts are the program's own input and
# expected output.
stored() {
    bytes=days/$1.day report=days/$1.report
    if [ "$1" = verdicts ]; then bytes=crates/dayrun/stdin report=crates/dayrun/stdout; fi
}
