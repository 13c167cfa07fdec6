# Of the programs that stand at the top: which crates each is made of, whether it is built, and the three ways to an answer. It is
# read by these scripts, which set `top`, the repository's folder.
. "$top/tools/dist.sh"

# The crates that a program is made of, each after those that it uses; libraries of the toolchain have no folder here. The list of
# crates has each crate behind those that it uses.
crates_of() {
    awk -v wanted="$1_main" '
        /^[a-z_]+:/ { name = $1; sub(/:.*/, "", name); order[++count] = name; uses[name] = $0 }
        END {
            needed[wanted] = 1
            for (i = count; i > 0; i--) {
                if (!(order[i] in needed)) continue
                n = split(uses[order[i]], words, /[: ]+/)
                for (k = 2; k <= n; k++) needed[words[k]] = 1
            }
            for (i = 1; i <= count; i++) if (order[i] in needed) print order[i]
        }' "$top/crates.txt"
}

program_of() {
    echo "$top/crates/$1_main/out/$1_main"
}

# Whether this processor has vectors of 32 bytes, and what else the toolchain takes for granted of one that has them.
has_wide_vectors() {
    [ -r /proc/cpuinfo ] || return 1
    while read -r word flags; do
        [ "$word" = flags ] || continue
        for feature in avx avx2 bmi1 bmi2 f16c fma abm movbe; do
            case " $flags " in
            *" $feature "*) ;;
            *) return 1 ;;
            esac
        done
        return 0
    done </proc/cpuinfo
    return 1
}

# What stands beside a program, and is newer, where it was built for such processors alone.
mark_of() {
    echo "$top/crates/$1_main/out/wide"
}

# A program is built where it is newer than all that rt makes it of: documents and wrong edits are no part of it. One that asks for
# more than this processor has isn't.
is_built() {
    [ -x "$(program_of "$1")" ] || return 1
    if [ "$(mark_of "$1")" -nt "$(program_of "$1")" ]; then
        has_wide_vectors || return 1
    fi
    set -- "$(program_of "$1")" "$top/crates.txt" "$top/HANDLES" $(crates_of "$1" | sed "s,.*,$top/crates/&/src $top/crates/&/specs $top/crates/&/proofs,")
    program=$1
    shift
    [ -z "$(find "$@" -type f -newer "$program" -print 2>/dev/null | head -n 1)" ]
}

# Ends the script if the toolchain's command isn't there. If dist/ was asked before, `why` says why it has no answer, and `advice` what
# to do.
need_rt() {
    command -v rt >/dev/null 2>&1 && return
    echo "$1: there is no command rt on the path, so nothing can be proved or built here${why:+, and $why: $advice}" >&2
    exit 2
}

# Tells a person that the program reads what is typed.
tell_terminal() {
    [ -t 0 ] && echo "$1: waiting for a head and then a haystack on standard input; docs/NOTATION.md describes them" >&2
}

# An unproved run reads its input whole: rt try takes fewer than this many bytes, and cuts what is longer.
most_unproved=67108863

# Runs a program with nothing proved, with the arguments behind its name, and ends with its status; what such a run can't do is told
# with status 2.
try_program() {
    program=$1
    shift
    [ $# = 0 ] || set -- -- "$@"
    # One step of the interpreter: what is compiled with checks answers, and runs as the interpreter does.
    (cd "$top/crates/${program}_main" && rt try --steps 1 "$@") >"$folder/reply" 2>"$folder/said"
    status=$(sed -n 's/^run=ended status=\([0-9]*\) .*/\1/p' "$folder/said")
    # A program that may do without standard input tells where it reads it.
    is_read=1
    [ "${2-}" = --report-input ] && ! grep -q '^input=read$' "$folder/said" && is_read=
    if [ "$is_read" ] && [ -t 0 ]; then
        echo "$program: an unproved run reads no terminal; ./prove builds the program, which does" >&2
        exit 2
    fi
    if [ -z "$status" ] || { [ "$is_read" ] && grep -q '^rt: standard input did not end' "$folder/said"; }; then
        why=$(sed -n 's/^checked: //p' "$folder/said" | head -n 1)
        [ -n "$why" ] || why=$(grep -v -e '^run=' -e '^interpreter: ' "$folder/said" | head -n 1)
        echo "$program: the unproved run gave no answer (${why:-rt try said nothing}); ./prove builds the program, which has no such limit" >&2
        exit 2
    fi
    grep -v -e '^run=' -e '^interpreter: ' -e '^checked: ' -e '^rt: ' -e '^| ' -e '^input=read$' "$folder/said" >&2
    if ! cat "$folder/reply" 2>/dev/null; then
        echo "$program: write fault" >&2
        exit 2
    fi
    exit "$status"
}

# Makes the folder of an unproved run.
make_folder() {
    folder=$(mktemp -d) || exit 2
    trap 'rm -rf "$folder"' EXIT
    trap 'exit 2' HUP INT TERM
    trap '' PIPE
}

# Runs a program on standard input with nothing proved.
run_unproved() {
    make_folder
    if ! head -c $((most_unproved + 1)) >"$folder/input" 2>/dev/null; then
        echo "$1: read fault" >&2
        exit 2
    fi
    if [ "$(wc -c <"$folder/input")" -gt "$most_unproved" ]; then
        echo "$1: an unproved run takes $most_unproved bytes of input at most; ./prove builds the program, which takes more" >&2
        exit 2
    fi
    try_program "$1" <"$folder/input"
}

# Sets `program` to what answers by the name $1: what ./prove built if it is newer than dist/, else the program of dist/ that runs here,
# else what ./prove built before. If there is none of them, fails and sets `why`.
choose_program() {
    why='dist/ is older than what ./prove built'
    program=$(program_of "$1")
    { [ ! -f "$manifest" ] || [ "$program" -nt "$manifest" ]; } && is_built "$1" && return
    if choose_ready "$1"; then
        program=$top/dist/$ready/$1
        return
    fi
    is_built "$1"
}

# Before an unproved run: reports why it is one, or ends the script where even that can't be had.
tell_unproved() {
    need_rt "$1"
    echo "$1: $why, and nothing is proved yet, so this answer is checked as it runs and no more; ./prove proves and builds the program" >&2
}

# Answers by a built program, or else with nothing proved. The program holds all that it reads and writes, so it asks for its memory in
# large pages, of which it takes fewer; not where addresses are scarce, since it asks for some that it doesn't use.
answer() {
    if choose_program "$1"; then
        tell_terminal "$1"
        if [ "$(ulimit -v)" = unlimited ]; then
            GLIBC_TUNABLES=${GLIBC_TUNABLES:-glibc.malloc.hugetlb=1:glibc.malloc.top_pad=67108864}
            export GLIBC_TUNABLES
        fi
        exec "$program"
    fi
    tell_unproved "$1"
    tell_terminal "$1"
    run_unproved "$1"
}

# Ends with the answer of a built program, with the arguments behind its name; if there is none, makes the folder of an unproved run.
answer_if_built() {
    name=$1
    shift
    choose_program "$name" && exec "$program" "$@"
    tell_unproved "$name"
    make_folder
}

# The same of a program that reads no input, with the arguments behind its name.
answer_arguments() {
    answer_if_built "$@"
    try_program "$@" </dev/null
}

# The same of a program that reads the files that arguments name, or standard input. An unproved run isn't in the caller's folder.
answer_files() {
    answer_if_built "$@"
    shift
    try_program "$name" --report-input --directory "$PWD" "$@"
}
