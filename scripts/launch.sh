# shellcheck shell=bash
# What ./follow and ./rehearse share: proving and building a program of this repository if need be, then running it. A script that sources
# this file has a function `usage`, which prints its help, and calls `launch`. What the other functions here read is set in `launch`.

say() { printf '%s: %s\n' "$name" "$*" >&2; }
wrong_use() { say "$* (./$name --help says how to use it)"; exit 2; }

# Whether the program is missing, or older than a file that may be part of it: by dates, where rt goes by contents. What rt makes, in the
# folders out, is no part.
is_stale() {
    [ ! -x "$program" ] \
        || [ -n "$(find "$here"/crates/*/* "$here/crates.txt" -name out -prune -o -newer "$program" -print | head -n 1)" ]
}

# Of all that rt says passes on one line for each crate that is proved anew, or that fails.
progress() {
    local line crate=
    while IFS= read -r line; do
        case $line in
        '== summary') crate= ;; # after it only the program is built
        '== '*) crate=${line#== } ;;
        'logic=proved '*) [ -z "$crate" ] || say "$crate: proved" ;;
        *': failed ('*')' | *': not run, since '*' failed') say "$line" ;;
        esac
    done
}

# Proves the program and all crates below it, some side by side; then builds it and runs it on its own input.
prove_and_run() {
    local jobs
    jobs=$(nproc)
    [ "$jobs" -le 4 ] || jobs=4
    cd "$here/crates/$name" && rt all check --jobs "$jobs" 2>&1 </dev/null && rt run 2>&1 >"$log.stdout" <stdin
}

# Proves and builds the program. It gets the date of the beginning, so that a file that is edited meanwhile is newer.
build() {
    say "proving and building the program, which takes $takes the first time, on two cores; a line a crate:"
    command -v rt >/dev/null || { say 'rt, the command of the Rattle kit, is not on the path'; exit 3; }
    if mkdir -p "$here/target/log" "$here/target/bin" && : >"$log.began" \
        && (set -o pipefail && prove_and_run | tee "$log" | progress) \
        && cmp "$log.stdout" "$here/crates/$name/stdout" >>"$log" 2>&1 \
        && cp "$here/crates/$name/out/$name" "$program.new" && touch -r "$log.began" "$program.new" && mv "$program.new" "$program"; then
        return
    fi
    say "the program could not be proved and built; all that rt said is in $log"
    exit 3
}

# Whether a file's name is UTF-8 text, as the program takes it. A file of any other name is its standard input.
is_text() { ! command -v iconv >/dev/null || printf %s "$1" | iconv -f UTF-8 >/dev/null 2>&1; }

# launch FOLDER NAME TIME [ARGUMENT]..: does what a script's arguments ask of the program NAME, and exits. FOLDER: the repository's. TIME: how
# long proving and building the program takes, in words. No argument is the program's own example, - is standard input, any other that is
# no option is the name of a file.
launch() {
    local here=$1 name=$2 takes=$3
    local program=$here/target/bin/$name # a copy of what rt built, made once its own run is as expected
    local log=$here/target/log/$name.log
    local said status=0
    shift 3

    [ $# -le 1 ] || wrong_use "one FILE at most, not $#"
    case ${1-} in
    -h | --help) usage; exit 0 ;;
    -)
        { : 4<&0; } 2>/dev/null || { say 'standard input is closed'; exit 1; }
        set -- # with no argument the program reads standard input
        ;;
    -*) wrong_use "unknown option $1" ;;
    example) set -- ./example ;; # the bare word means the program's own example
    '')
        [ $# -eq 0 ] || wrong_use 'an empty name of a file'
        set -- example
        ;;
    esac
    if is_stale; then build; fi
    if [ $# -eq 1 ] && ! is_text "$1"; then
        { : <"$1"; } 2>/dev/null || { say "$1: cannot be opened"; exit 1; }
        exec <"$1"
        set --
    fi

    # The program writes to standard error exactly if opening, reading or writing failed. That is caught here, to be told under the
    # script's name, while standard output goes past it by descriptor 3.
    { said=$("$program" "$@" 2>&1 >&3 3>&-) || status=$?; } 3>&1
    [ -z "$said" ] || say "$said"
    exit "$status"
}
