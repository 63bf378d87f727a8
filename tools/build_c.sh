#!/bin/sh
# Makes crates/flt_c/out/libflt_c.a, the library for C, over the libraries that `rt ci` has proved in this checkout: flt_c is checked once more
# and compiled, which takes a minute. It does nothing where the library is newer than all that it is made of.
# It says what it leaves out where the kit or a library is not there. The status is 1 if the library is refused.
cd "$(dirname "$0")/.." || exit 1
library=crates/flt_c/out/libflt_c.a
rt=$(command -v rt) || { echo "build_c: no rt: skipped"; exit 0; }
kit=$(dirname "$("$rt" doc)")
set --
for name in $(sed -n 's/^flt_c staticlib://p' crates.txt); do
    rlib=$kit/rlibs/$name.rlib
    [ -d "crates/$name" ] && rlib=$PWD/crates/$name/out/rlib/$name.rlib
    [ -e "$rlib" ] || { echo "build_c: no $rlib, which rt ci makes: skipped"; exit 0; }
    set -- "$@" --extern "$name=$rlib"
done
for folder in crates/*/out/rlib; do
    set -- "$@" -L "dependency=$PWD/$folder"
done
if [ -f "$library" ] && [ -z "$(find crates/flt_c/src crates/flt_c/specs crates/flt_c/proofs crates/*/out/rlib -newer "$library" -print 2>/dev/null | head -n 1)" ]; then
    exit 0
fi
mkdir -p crates/flt_c/out
cd crates/flt_c || exit 1
"$kit/bin/rattle" build --crate-name flt_c src/lib.rt --crate-type staticlib --extern "std=$kit/rlibs/std.rlib" -L "dependency=$kit/rlibs" "$@" \
    --antt-project "$kit/rattle/logic/antt-project.json" --logic-built "$kit/logic_built" --links flt_c= --jobs 2 --toolchain "$kit/toolchain" --backend llvm \
    -o out/libflt_c.a >out/build.log 2>&1 || { tail -n 20 out/build.log; echo "build_c: the library for C is refused"; exit 1; }
echo "build_c: $library"
