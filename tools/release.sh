#!/bin/sh
# tools/release.sh [--unproved] LOG FOLDER: makes the archive of a release in this folder, and prints its name. It has the three programs, in
# bin/, the wrapper that runs them there, the pages, the clients, the examples of the pages, and a checksum of each file. LOG is what
# rt ci wrote; its last line is in the archive's file RELEASE, and has to say that nothing failed.
#
# The programs are those of these sources: one that is not built, or is of others, ends it with status 1. With --unproved the programs
# are those of ./faultmem try, and the name and RELEASE say so; it is for trying the archive, and not for giving it away.
# It needs tar and sha256sum of GNU, and gzip.
set -eu
usage() {
    sed -n 's/^# \{0,1\}//; 2,9p' "$0"
    exit "$1"
}
fail() {
    echo "release.sh: $*" >&2
    exit 1
}
unproved=
case ${1-} in
    --help | -h) usage 0 ;;
    --unproved)
        unproved=yes
        shift
        ;;
esac
[ "$#" = 2 ] || usage 1
log=$1
folder=$(unset CDPATH && cd -- "$2" && pwd)
top=$(unset CDPATH && cd -- "$(dirname -- "$0")/.." && pwd)
last=$(grep . "$log" | tail -n 1)
case $last in
    *[0-9]" passed, 0 failed"*) ;;
    *) fail "the last line of $log is '$last', and not that of a gate in which nothing failed" ;;
esac

work=$(mktemp -d)
trap 'rm -rf "$work"' EXIT
trap 'exit 1' HUP INT TERM
version=$(cat "$top/VERSION")
name=faultmem-$version-$(uname -s | tr '[:upper:]' '[:lower:]')-$(uname -m)${unproved:+-unproved}
root=$work/$name
mkdir -p "$root/bin" "$root/crates"

# The programs. Whether one is that of its sources the wrapper knows, which then prints nothing. It is given no rt, so it builds none.
mkdir "$work/no-rt"
for it in awk cat cksum dirname find grep head ls mktemp readlink rm sed sort tail tr; do
    ln -s "$(command -v "$it")" "$work/no-rt/$it"
done
for it in faultmem:check flt_inspect:trace faultmem_live:live; do
    program=${it%:*}
    if [ -n "$unproved" ]; then
        cp "$top/crates/$program/out/try" "$root/bin/$program" || fail "$program is not built; ./faultmem try ${it#*:} builds it"
        continue
    fi
    set -- "${it#*:}"
    [ "$1" != live ] || set -- live "$top/crates/faultmem_live/data/config"
    PATH=$work/no-rt "$top/faultmem" "$@" </dev/null >/dev/null 2>"$work/told" || fail "$program does not run: $(head -n 1 "$work/told")"
    [ ! -s "$work/told" ] || fail "$program may be of other sources: $(head -n 1 "$work/told")"
    cp "$top/crates/$program/out/$program" "$root/bin/$program"
done
chmod 755 "$root"/bin/*

# What is run and read. Of the crates the archive has the files that pages and clients name.
cp "$top/faultmem" "$top/VERSION" "$top/README.md" "$top/CHANGELOG.md" "$root"
(cd "$top" && find docs clients tools crates/examples/data crates/flt_inspect/data crates/faultmem_live/data crates/README.md -type f \
    ! -path '*/__pycache__/*' -print | tar -cf - -T -) | tar -C "$root" -xf -
{
    echo "version $version"
    echo "revision $(git -C "$top" describe --always --dirty 2>/dev/null || echo unknown)"
    echo "toolchain $(rt version 2>/dev/null || echo unknown)"
    if [ -n "$unproved" ]; then
        echo "gate none: these programs are not proved"
    else
        echo "gate $last"
    fi
} >"$root/RELEASE"
(cd "$root" && find . -type f | LC_ALL=C sort | sed 's|^\./||' | xargs -d '\n' sha256sum) >"$work/sums"
mv "$work/sums" "$root/SHA256SUMS"

# The same files give the same archive.
when=$(git -C "$top" log -1 --format=%ct 2>/dev/null || echo 0)
tar -C "$work" --sort=name --owner=0 --group=0 --numeric-owner --mtime="@$when" -cf - "$name" | gzip -n >"$folder/$name.tar.gz"
echo "$folder/$name.tar.gz"
