# shellcheck shell=bash disable=SC2034 # what is set here is for those that read this file
# What ./test and the tools in shell share: how they begin and end, count and tell, and take cases. tools/common.py has it for those in Python.
#
# Whoever reads it stands at the top of the repository then. The last line of each of them is 'N passed, M failed', with
# ', K skipped' where something was left out.
cd "$(dirname -- "$(readlink -f -- "${BASH_SOURCE[0]}")")/.." || exit
me=${0##*/}
passed=0
failed=0
skipped=0
job=

# Ends where rt isn't there, before anything else is tried.
need_rt() {
    command -v rt >/dev/null && return
    echo "$me: rt not found; it is the command of the Rattle kit. README.md, 'First commands', says how to get it" >&2
    exit 127
}

# Those of these commands that aren't there, as "there is no" goes on.
missing() {
    local name names=
    for name in "$@"; do
        command -v "$name" >/dev/null || names+="${names:+ and no }$name"
    done
    echo "$names"
}

# Makes a folder of all commands of the path but for the toolchain's.
make_path() {
    local folders at
    mkdir "$1"
    IFS=: read -ra folders <<<"$PATH"
    for ((at = ${#folders[@]} - 1; at >= 0; at--)); do
        find "${folders[at]}/" -mindepth 1 -maxdepth 1 -exec ln -sf -t "$1" {} + 2>/dev/null
    done
    rm -f "$1"/{rt,rt-*,rattle,rattle-*}
}

# The functions of the library that headers declare, a name a line. What is `static inline` there is in no library.
declared_in() {
    grep -ohE '^(RESIL_MUST_USE )?(void|size_t|uint[0-9]+_t) resil_[a-z_]+\(' "$@" | sed 's/.* //; s/($//' | LC_ALL=C sort -u
}

# Runs a command in a group of processes of its own, which `stop` ends with all that it has started.
run_job() {
    set -m
    "$@" &
    job=$!
    set +m
    wait "$job"
}

# What was started has ended before the folder that it writes into goes, or within five seconds.
stop() {
    local left=50
    [ -z "$job" ] || kill -TERM -- "-$job" 2>/dev/null
    while [ -n "$job" ] && [ $((left -= 1)) -gt 0 ] && kill -0 -- "-$job" 2>/dev/null; do sleep 0.1; done
    echo "$me: interrupted" >&2
    exit 1
}

# Counting and telling.

fail() {
    failed=$((failed + 1))
    echo "$me: $*"
}

# Counts what was left out, and says why.
skip() {
    skipped=$((skipped + 1))
    echo "$me: $*"
}

# Counts what has passed where the status is 0; else it has failed, and the text says how.
tell() {
    if [ "$1" -eq 0 ]; then
        passed=$((passed + 1))
    else
        fail "${@:2}"
    fi
}

# The same by a process that runs beside others: a line that add_marks reads.
mark() {
    if [ "$1" -eq 0 ]; then
        echo passed
    else
        echo "failed: ${*:2}" | cut -c 1-400
    fi
}

# Adds lines 'passed', or 'passed N ..' for N of them; each other line has failed, and is told.
add_marks() {
    local count
    grep -vE '^passed( [0-9]+)*$' "$1" | sed "s/^/$me: /"
    count=$(awk '/^passed$/ { count++ } /^passed [0-9]/ { count += $2 } END { print count + 0 }' "$1")
    passed=$((passed + count))
    failed=$((failed + $(grep -vcE '^passed( [0-9]+)*$' "$1")))
}

# Adds the counts of a last line; where there is none, it has failed.
add_counts() {
    if [[ $(tail -n 1 "$1") =~ ^([0-9]+)\ passed,\ ([0-9]+)\ failed(,\ ([0-9]+)\ skipped)?$ ]]; then
        passed=$((passed + BASH_REMATCH[1]))
        failed=$((failed + BASH_REMATCH[2]))
        skipped=$((skipped + ${BASH_REMATCH[4]:-0}))
    else
        fail "$2 broke off: $(tail -n 20 "$1")"
    fi
}

# Counts the tests that passed, by the status and the log of cargo test. Another status than 0 has failed, and so has no test at all.
add_tests() {
    local count
    count=$(grep -c '^test .* ok$' "$2")
    passed=$((passed + count))
    if [ "$1" -ne 0 ] || [ "$count" -eq 0 ]; then
        fail "$3 failed: $(tail -n 20 "$2")"
    fi
}

# The last line. Nothing at all is a failure.
finish() {
    local more=
    [ $((passed + failed + skipped)) -gt 0 ] || failed=1
    [ "$skipped" -eq 0 ] || more=", $skipped skipped"
    echo "$passed passed, $failed failed$more"
    [ "$failed" -eq 0 ]
}

# The script again for each COUNT words of standard input, with the words given before them, and so many side by side; what
# these write is marks, which are added, and stay in the folder.
side_by_side() {
    local places=$1 count=$2
    shift 2
    xargs -P "$places" -n "$count" "tools/$me" "$@" >"$folder/told" 2>&1
    add_marks "$folder/told"
}

# A folder of out/ for what the script makes, empty.
make_folder() {
    folder=$PWD/out/$me
    rm -rf "$folder" && mkdir -p "$folder" || exit
    export folder
}

# Cases: those of cases/, and examples/.

# Lays out all cases in a folder, as tools/cases.py does.
unpack_cases() {
    export cases=$1
    tools/cases.py "$cases"
}

case_names() {
    cut -d ' ' -f 1 "$cases/names"
}

# Where a case stands.
place_of() {
    sed -n "s|^$1 ||p" "$cases/names"
}

# Sets what a case is made of, and the program that answers it.
take_case() {
    local how
    name=$1
    input=$cases/$1.resil
    output=$cases/$1.out
    explained=$cases/$1.told
    mapfile -t how <"$cases/$1.how"
    wanted=${how[0]}
    space=${how[1]}
    words=("${how[@]:2}")
    take_program "${words[0]:-}"
}

# Programs.

# Sees to it that RESIL_BUILT and RESIL_LOOK_BUILT name the programs: else those are taken that ./resil proves and builds.
build_programs() {
    if [ -z "${RESIL_BUILT:-}" ] || [ -z "${RESIL_LOOK_BUILT:-}" ]; then
        need_rt
        ./resil prove || return
        export RESIL_BUILT=$PWD/out/resil RESIL_LOOK_BUILT=$PWD/out/resil_look
    fi
}

# Sets the program that answers a first word, and its crate.
take_program() {
    top=resil
    program=${RESIL_BUILT:-}
    if [[ $1 == judge || $1 == stats || $1 == timeline || $1 == simulate ]]; then
        top=resil_look
        program=${RESIL_LOOK_BUILT:-}
    fi
}

# The launcher as the archive has it, without what only a repository has.
pack_launcher() {
    sed '/^# -- What only a repository has/,/^# -- The end of what/d' resil >"$1" && chmod +x "$1"
}
