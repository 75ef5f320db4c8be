#!/bin/sh
# build.sh DIRECTORY [OPTION..]: DIRECTORY/libbaseline.a, built with these options of the compiler too.
set -eu
made=$1
shift
here=$(cd "$(dirname "$0")" && pwd)
mkdir -p "$made"
rm -f "$made/libbaseline.a"
for name in reader writer converter formula checker heap machine; do
    # each instruction keeps its own jump to the next; a formula line has none
    jumps="-fno-gcse -fno-crossjumping -fno-tree-vectorize"
    if [ "$name" = formula ]; then jumps=; fi
    cc -O3 $jumps -Wall -Wextra -Werror -I"$here/../../../include" "$@" -c -o "$made/$name.o" "$here/$name.c"
    ar rcs "$made/libbaseline.a" "$made/$name.o"
done
