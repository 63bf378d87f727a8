#!/bin/sh
# Compiles the header for C as C99 and as C++17, builds the programs of c/ with both sanitizers and runs them: the first program, the example
# that tears each operation, calls without heap, a fuzz, and the calls from Python against `faultmem run`. The words: how many calls the
# fuzz makes, and how many scripts are compared. FLT_C is another libflt_c.a, and RUN another program `faultmem`.
# It says what it leaves out where cc, the kit, the library or python3 is not there. It builds no library: `tools/build_c.sh` does.
cd "$(dirname "$0")/.." || exit 1
calls=${1:-10000}
scripts=${2:-100}
library=${FLT_C:-crates/flt_c/out/libflt_c.a}
cc=${CC:-cc}
command -v "$cc" >/dev/null 2>&1 || { echo "check_c: no C compiler: skipped"; exit 0; }
out=$(mktemp -d) || exit 1
trap 'rm -rf "$out"' EXIT
warnings="-Wall -Wextra -pedantic -Werror"
echo '#include "faultmem.h"' >"$out/header.c"
"$cc" -std=c99 $warnings -Ic -c "$out/header.c" -o "$out/header.o" || exit 1
if command -v c++ >/dev/null 2>&1; then
    cp "$out/header.c" "$out/header.cpp"
    c++ -std=c++17 $warnings -Ic -c "$out/header.cpp" -o "$out/header.o" || exit 1
fi
for name in faultmem first example fuzz heap; do
    "$cc" -std=c99 $warnings -Ic -c "c/$name.c" -o "$out/$name.o" || exit 1
done
echo "check_c: the header and 5 programs compile"
rt=$(command -v rt) || { echo "check_c: no rt: no program is run"; exit 0; }
heap=$(dirname "$(rt doc)")/c/liblibc_c.a
for file in "$library" "$heap"; do
    [ -f "$file" ] || { echo "check_c: no $file: no program is run"; exit 0; }
done
sanitizers="-fsanitize=address,undefined -fno-sanitize-recover=all"
echo 'int main(void) { return 0; }' >"$out/none.c"
if ! "$cc" $sanitizers "$out/none.c" -o "$out/none" 2>/dev/null || ! "$out/none"; then
    echo "check_c: no sanitizers: the programs run without them"
    sanitizers=
fi
for name in first example fuzz heap; do
    wrapped=
    [ "$name" = heap ] && wrapped=-Wl,--wrap=malloc,--wrap=realloc
    "$cc" -std=c99 -O1 -g $warnings $sanitizers -Ic "c/$name.c" c/faultmem.c "$library" "$heap" $wrapped -o "$out/$name" || exit 1
done
"$out/first" >/dev/null || exit 1
"$out/example" || exit 1
"$out/heap" || exit 1
"$out/fuzz" "$calls" || exit 1
command -v python3 >/dev/null 2>&1 || { echo "check_c: no python3: its part is left out"; exit 0; }
"$cc" -std=c99 -O2 $warnings -fPIC -shared -Ic c/faultmem.c -Wl,--whole-archive "$library" -Wl,--no-whole-archive "$heap" \
    -o "$out/libfaultmem.so" || exit 1
FAULTMEM_LIBRARY="$out/libfaultmem.so" FAULTMEM_RUN="${RUN:-crates/faultmem/out/faultmem}" FAULTMEM_SCRIPTS="$scripts" \
    python3 -m unittest discover -s c -t c
