#!/bin/sh
# Checks the archive of a release: tools/release.sh makes it into a new folder, and its programs answer there with the system's path alone.
# It ends with 1 where something is wrong. Where the three programs are not built of these sources, those of ./faultmem try are taken, and
# where these are not there either, or a command that makes the archive, nothing is checked.
exec </dev/null
top=$(unset CDPATH && cd -- "$(dirname -- "$0")/.." && pwd) || exit 1
for it in tar gzip sha256sum; do
    command -v "$it" >/dev/null 2>&1 || { echo "release: the command $it is not there, so no archive is checked"; exit 0; }
done
work=$(mktemp -d) || exit 1
trap 'rm -rf "$work"' EXIT
trap 'exit 1' HUP INT TERM

# Whether a program is built of the sources that are here: the wrapper then runs it without rt, and prints nothing.
mkdir "$work/no-rt"
for it in awk cat cksum dirname find grep head ls mktemp readlink rm sed sort tail tr; do
    file=$(command -v "$it") && ln -s "$file" "$work/no-rt/$it"
done
is_built() {
    PATH=$work/no-rt "$top/faultmem" "$@" </dev/null >/dev/null 2>"$work/told" && [ ! -s "$work/told" ]
}
unproved=
if is_built check && is_built trace && is_built live "$top/crates/faultmem_live/data/config"; then
    :
elif [ -x "$top/crates/faultmem/out/try" ] && [ -x "$top/crates/flt_inspect/out/try" ] && [ -x "$top/crates/faultmem_live/out/try" ]; then
    unproved=--unproved
else
    echo "release: the programs are not built of these sources, so no archive is checked"
    exit 0
fi
rows=0
wrong=0

bad() {
    echo "release: $*"
    wrong=$((wrong + 1))
}

# A log whose last line is that of no gate is refused.
rows=$((rows + 1))
mkdir "$work/made" "$work/new"
echo "90 passed, 1 failed" >"$work/log"
# The option is split on purpose, here and below.
# shellcheck disable=SC2086
! "$top/tools/release.sh" $unproved "$work/log" "$work/made" >/dev/null 2>&1 || bad "a gate that failed is taken"
echo "0 passed, 0 failed: the archive alone is checked" >"$work/log"
# shellcheck disable=SC2086
archive=$("$top/tools/release.sh" $unproved "$work/log" "$work/made") || { bad "no archive is made"; exit 1; }
(cd "$work/new" && tar -xzf "$archive") || exit 1
here=$(echo "$work/new"/*)

# The commands of the archive, in its folder, in an environment that has the system's path alone.
in_archive() {
    (cd "$here" && env -i PATH=/usr/bin:/bin TMPDIR="$work" sh -c "$1") >"$work/out" 2>"$work/err"
    got=$?
}

# A row: the status, what is printed, as a pattern, how a line on standard error begins, or nothing, and the command.
row() {
    rows=$((rows + 1))
    in_archive "$4"
    printed=$(cat "$work/out")
    # shellcheck disable=SC2254
    case $printed in
        $2) [ "$got" = "$1" ] && if [ -n "$3" ]; then grep -q "^$3" "$work/err"; else [ ! -s "$work/err" ]; fi && return ;;
    esac
    bad "$4: status $got, printed '$(printf %s "$printed" | cut -c 1-300)', told '$(cut -c 1-300 "$work/err")'"
}

data=$top/crates/examples/data
began=$(date +%s)
row 0 "$(cat "$data/first.report")" "" "./faultmem run crates/examples/data/first.script"
[ $(($(date +%s) - began)) -le 10 ] || bad "the first answer takes more than ten seconds"
row 0 "" "" "sha256sum --quiet -c SHA256SUMS"
row 0 "faultmem $(cat "$top/VERSION"), * (*" "" "./faultmem --version"
row 0 "version $(cat "$top/VERSION")
revision *
toolchain *
gate *" "" "cat RELEASE"
row 0 "$(cat "$data/first.report")" "faultmem: this is a release" "./faultmem try run crates/examples/data/first.script"
row 2 "script line 1 word" "faultmem: word: its first word begins no line" "echo nothing | ./faultmem run"
row 1 "usage: *" "faultmem: there is no command 'rnu'; did you mean 'run'?" "./faultmem rnu"
row 0 "$(cat "$top/crates/flt_inspect/data/listing")" "" "./faultmem inspect crates/flt_inspect/data/dump"
row 0 "yes 11" "" "./faultmem trace crates/examples/data/first.script | ./faultmem audit"
row 0 "life 1 generation 0
cycle 0 -> taken
save -> 1" "" "printf '%s\\n' 'cycle 0' save | ./faultmem live crates/faultmem_live/data/config image"
row 0 "life 1 generation 1" "" "./faultmem live crates/faultmem_live/data/config image"
if [ -x /usr/bin/python3 ]; then
    row 0 "life 1 generation 0
taken
taken" "" "printf '%s\\n' 'cycle 0' 'fail 0' | clients/live.py crates/faultmem_live/data/config"
fi
echo "release: $rows rows, $wrong wrong${unproved:+, over programs without their proofs}"
[ "$wrong" = 0 ]
