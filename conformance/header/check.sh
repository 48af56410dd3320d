#!/usr/bin/env bash
# The header: clean in every standard of C from C89 and of C++ from C++98, as the example in C is in both; the same names and numbers in Rust;
# each number as the library has it (constants.c), and each of them such that another number there would fail.
#
#     conformance/header/check.sh [FOLDER]     after `tools/library.sh`; what it builds goes to FOLDER (target/header)
set -euo pipefail
cd "$(dirname "$0")/../.."
out=${1:-target/header}
archive=target/staticlib/libexports.a
strict="-Wall -Wextra -Wpedantic -Werror"
mkdir -p "$out"

# Twice, for the guard.
printf '#include "runtime.h"\n#include "runtime.h"\nint main(void);\n' > "$out/twice.c"

# The header and the example in one standard: compiler, language, standard.
clean() {
    $1 -x "$2" -std="$3" $strict -I include -fsyntax-only "$out/twice.c"
    $1 -x "$2" -std="$3" $strict -O2 -I include examples/c/main.c -x none $archive -o "$out/counting-$3"
    "$out/counting-$3" | diff examples/output.txt -
}
for standard in c89 c99 c11 c17; do clean gcc c $standard; done
for standard in c++98 c++11 c++17 c++20; do clean g++ c++ $standard; done
echo "the header and the example are clean in C89, C99, C11, C17, C++98, C++11, C++17 and C++20"

numbers() { sed -n 's/^#define RUNTIME_\([A-Z_]*\) \([0-9A-Fx]*\)\( .*\)\?$/\1 \2/p' include/runtime.h; }
count=$(numbers | wc -l)
test "$count" = "$(grep -c '^#define RUNTIME_[A-Z_]* ' include/runtime.h)"
diff <(numbers) <(sed -n 's/^pub const \([A-Z_]*\): u[a-z0-9]* = \([0-9A-Fx]*\);.*/\1 \2/p' examples/rust/runtime.rs)

gcc -std=c89 $strict -I include conformance/header/constants.c $archive -o "$out/constants"
"$out/constants"

# The same over a header in which every number is a call of other.h, which gives another number in the place of one.
mkdir -p "$out/other"
awk '/^#define RUNTIME_[A-Z_]* / { $3 = "other(" number++ ", " $3 ")" } { print }' include/runtime.h > "$out/other/runtime.h"
gcc -include conformance/header/other.h -I "$out/other" conformance/header/constants.c $archive -o "$out/other/constants"
"$out/other/constants"
number=0
for name in $(numbers | cut -d' ' -f1); do
    for more in 1 -1; do
        if OTHER_NUMBER=$number OTHER_MORE=$more "$out/other/constants" > /dev/null; then
            echo "RUNTIME_$name $more may stand in its place, and nothing fails"
            exit 1
        fi
    done
    number=$((number + 1))
done
echo "each of $count numbers is the library's and Rust's, and one more or one less in its place fails"
