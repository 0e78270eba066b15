# Sourced by the scripts beside it: builds the C example of the script's name, and the engine's archive under it, where a source is newer, and runs it; on the
# banks beside it, if there are any.

root=$(cd "$(dirname "$0")/.." && pwd) || exit 2
. "$root/tests/build.sh"

name=${0##*/}
build_archive
program=$root/target/examples/$name
if newer "$program" "$root/examples/$name.c" "$root/include" "$archive"; then
    mkdir -p "$root/target/examples" || exit 2
    building "$program" cc -std=c11 -O2 -g -Wall -Wextra -Werror -I "$root/include" -o "$program" "$root/examples/$name.c" "$archive"
fi
for bank in "$root/examples/$name.bank" "$root/examples/$name-with-records.bank"; do
    if [ -f "$bank" ]; then set -- "$@" "$bank"; fi
done
exec "$program" "$@"
