# What tools/list, tools/run_program, tools/library and tools/check share: how they have rt build something.
# Each reads this file in the repository's folder, with its own name in the variable tool.

# shellcheck shell=sh disable=SC2154

say() {
    echo "$tool: $*" >&2
}

# One at a time builds, from take_turn until drop_turn.
take_turn() {
    mkdir -p target
    exec 9<target
    flock -w 2 9 || { say "waits for another that builds here"; flock 9; }
}

drop_turn() {
    exec 9<&-
}

# Of what rt prints, says each crate as it is proved, with the seconds that it took.
name_proved() {
    crate=
    while IFS= read -r line; do
        case $line in
        "rt: chose --jobs "*)
            crate=${line##* }
            begun=$(date +%s)
            ;;
        "logic=proved "*) [ -z "$crate" ] || say "$crate proved ($(($(date +%s) - begun)) s)" ;;
        esac
    done
}

# rt_in CRATE WORDS..: runs rt in a crate's folder, and names what is proved on the way. What rt printed is
# then in target/building.log. A file says that rt succeeded: of a pipe sh tells only the last status.
rt_in() {
    rm -f target/building.well
    { (cd "crates/$1" && shift && exec rt "$@" 2>&1 </dev/null) && : >target/building.well; } |
        tee target/building.log | name_proved
    [ -e target/building.well ]
}

# Shows what rt printed, and says that it failed.
rt_failed() {
    cat target/building.log >&2
    command -v rt >/dev/null ||
        say "there is no rt on the PATH. It comes with the Rattle kit, which README.md names under The tests."
    say "rt $* failed"
    return 1
}

# is_current PROGRAM: whether rt built the program, and no crate was changed since.
is_current() {
    [ -x "crates/$1/out/$1" ] &&
        [ -z "$(find crates.txt crates -name out -prune -o \
            \( -name crates.txt -o -path '*/src*' -o -path '*/specs*' -o -path '*/proofs*' \) \
            -newer "crates/$1/out/$1" -print | head -n 1)" ]
}

# build_program PROGRAM: builds it where it is not current. `rt run` also runs what it has built, here on no
# input and without the files that it reads: what comes of that is of no account.
build_program() {
    is_current "$1" && return
    take_turn
    is_current "$1" || rt_in "$1" run || grep -q "^rt: running out/$1;" target/building.log ||
        rt_failed run "$1" || return
    drop_turn
}
