# Runs rt and tells its progress. Read after common.bash, under 'set -o pipefail'.
# shellcheck shell=bash

# what rt printed last, whole
rt_log=target/rt.log

# what its progress leaves out
passed_over='(: proved| proved|: ok)$|^(logic|library|statements|crate|axioms|linked|only)[ =]'
passed_over+='|^(\S+:[0-9]+:[0-9]+: )?note: |^== summary$|^rt: (chose |.*: begins with )'

# prove WORDS..: runs rt at the top of the repository and tells its progress; where rt fails, ends the script with rt's status
prove() {
    local status=0 log crates edits
    crates=$(needed_crates '' | wc -l)
    edits=$(find crates -path '*/must-fail/*.edit' | wc -l)
    case $1 in
    ci) say "proving $crates crates, and trying $edits must-fail edits; what an earlier run here passed is kept" ;;
    *) say "proving $crates crates" ;;
    esac
    log=$(mktemp)
    rt "$@" 2>&1 | tee "$log" | progress "$crates" "$edits" || status=$?
    mkdir -p target
    mv "$log" "$rt_log"
    if [ "$status" -ne 0 ]; then
        say "rt $* has failed; $rt_log has all that it printed" >&2
        exit "$status"
    fi
}

# in_crate NAME WORDS..: runs rt in the folder of a crate. What it prints stands in target/NAME.log; where rt fails, ends the script
in_crate() {
    local log
    mkdir -p target
    log=$(realpath -m "target/$1.log")
    (cd "crates/$1" && rt "${@:2}") </dev/null >"$log" 2>&1 || {
        grep -v ': proved$' "$log" >&2
        fail "rt ${*:2} in crates/$1 has failed; target/$1.log has all that it printed"
    }
}

# make_archive: proves and builds the core as a library for C
make_archive() {
    say "building the core as a library for C: proving $(needed_crates repository_c | wc -l) crates where they have changed"
    in_crate repository_c lib
    mkdir -p "$(dirname "$archive")"
    cp crates/repository_c/out/librepository_c.a "$archive"
}

# make_dayrun: proves and builds the program dayrun; it runs once, on no input
make_dayrun() {
    say "building the program dayrun: proving $(needed_crates dayrun | wc -l) crates where they have changed"
    in_crate dayrun run
    take_dayrun
}

# take_dayrun: puts the program that rt has built where the tests look for it
take_dayrun() {
    need_file crates/dayrun/out/dayrun 'rt ci'
    mkdir -p "$(dirname "$dayrun")"
    cp crates/dayrun/out/dayrun "$dayrun"
}

# needed_crates NAME: NAME and the crates that it needs; every crate where NAME is empty
needed_crates() {
    awk -v wanted="$1" '
        function visit(name,    list, count, k) {
            if (!(name in needs) || name in seen) return
            seen[name]
            print name
            count = split(needs[name], list, " ")
            for (k = 1; k <= count; k++) visit(list[k])
        }
        { sub(/#.*/, "") }
        split($0, line, ":") == 2 { split(line[1], words, " "); needs[words[1]] = line[2] }
        END { if (wanted != "") visit(wanted); else for (name in needs) visit(name) }' crates.txt
}

# progress CRATES EDITS: shortens what rt prints to a line a crate and a line an edit, of so many. It leaves out the functions that
# are proved, the notes and the libraries; all else it passes on.
progress() {
    local line crate=0 edit=0
    while IFS= read -r line; do
        if [[ $line =~ ^==\ ([a-z0-9_]+)$ && $line != '== summary' ]]; then
            crate=$((crate + 1))
            echo "crate $crate of $1: ${BASH_REMATCH[1]}"
        elif [[ $line =~ ^rt:\ ([a-z0-9_]+)\ is\ kept: ]]; then
            crate=$((crate + 1))
            echo "crate $crate of $1: ${BASH_REMATCH[1]}, proved by an earlier run here"
        elif [[ $line = 'rt: must-fail '*': refused, as it must be'* ]]; then
            edit=$((edit + 1)) line=${line#rt: must-fail }
            echo "edit $edit of $2: ${line/: refused, as it must be/ refused}"
        elif [[ ! $line =~ $passed_over ]]; then
            printf '%s\n' "$line"
        fi
    done
}
