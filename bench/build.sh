# Sourced by the scripts beside it: builds target/bench/bench where a source is newer.

here=$(cd "$(dirname "$0")" && pwd) || exit 2
root=$(cd "$here/.." && pwd) || exit 2
. "$root/tests/build.sh"

build_archive
build_second
folder=$root/target/bench
mkdir -p "$folder" || exit 2
# By gcc, as a firmware's maker would: of the C compilers at hand it makes the quickest check.
check=$folder/check.o
if newer "$check" "$here/src/check.c"; then
    quietly gcc -std=c11 -O3 -Wall -Wextra -Werror -c -o "$check" "$here/src/check.c"
fi
program=$folder/bench
if newer "$program" "$here/src" "$root/tests/compare/src/engines.rs" "$archive" "$second" "$check"; then
    quietly rustc --edition 2021 -C opt-level=3 --extern second="$second" -C link-arg="$archive" -C link-arg="$check" -o "$program" "$here/src/main.rs"
fi
