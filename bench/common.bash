# What check, count and run share, beside what all scripts do.
# shellcheck shell=bash
source "$(dirname "${BASH_SOURCE[0]}")/../scripts/common.bash"

bench=bench/target/release/bench
dayrun=${DAYRUN:-$dayrun}

# Builds the bench with the checker's program beside it. The core's archive and dayrun have to be there.
build_bench() {
    need_archive
    need_dayrun
    build bench --release
}
