# shellcheck shell=bash disable=SC2034 # what is set here is for those that read this file
# What tools/modules, tools/archive, tools/targets, tools/page and tools/dist share: they take no words, need rt, say what they do, and a TERM ends
# what they have started and leaves nothing half made. Whoever reads it stands at the top of the repository then, and has an empty folder, room,
# on the disk of out/.
# shellcheck source=tools/lib.sh
. "$(dirname -- "$(readlink -f -- "${BASH_SOURCE[0]}")")/lib.sh" || exit
[ $# -eq 0 ] || { echo "usage: tools/$me" >&2 && exit 2; }
need_rt
kit=$(dirname -- "$(dirname -- "$(readlink -f -- "$(command -v rt)")")")
mkdir -p out && room=$(mktemp -d "$PWD/out/$me.XXXXXX") || exit
trap 'kill $(jobs -p) 2>/dev/null || :; rm -rf "$room"' EXIT
trap 'stop' HUP INT TERM

# Says on standard error what is done from now on, and again each 20 seconds.
tell_step() {
    echo "$me: $SECONDS s: $*" >&2
    while sleep 20 >/dev/null 2>&1; do echo "$me: $SECONDS s: still $*" >&2; done >/dev/null &
}

# Whether a file that was built is there, and newer than each of these files and folders but for what was built.
is_newer() {
    [ -e "$1" ] && [ -z "$(find "${@:2}" -name out -prune -o -type f -newer "$1" -print -quit)" ]
}

# Sees to it that out/modules is that of the sources: over the crates of RESIL_TREE, where the gate has proved them, or else by ./resil prove.
need_modules() {
    is_newer out/modules/libresil_c.a crates crates.txt bindings/targets tools/modules && return
    if [ -n "${RESIL_TREE:-}" ]; then
        tell_step "has the static libraries built, in some 3 min on a quick machine"
        run_job tools/modules
    else
        run_job env -u RESIL_BUILT ./resil prove
    fi
}
