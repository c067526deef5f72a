#!/usr/bin/env bash
# Makes a file, has the page cache change 5 bytes in its middle, and compares it with a copy that dd changed.
#   examples/over.sh [COMMAND ..]    the command that the words `over PATH SIZE` are given to: ./pcache, where none is named
set -euo pipefail

top=$(cd "$(dirname "$0")/.." && pwd)
[ $# -gt 0 ] || set -- "$top/pcache"
folder=$(mktemp -d)
trap 'rm -rf "$folder"' EXIT

# 12,388 bytes: three pages of 4,096, and a part of a fourth.
size=12388
for ((number = 0; number < size / 38 + 1; number++)); do
    printf 'line %5d of a file that was there \n\n' "$number"
done > "$folder/lines"
head -c "$size" "$folder/lines" > "$folder/file"
cp "$folder/file" "$folder/wanted"
printf HELLO | dd of="$folder/wanted" bs=1 seek=8190 conv=notrunc status=none

# The five bytes lie on both sides of a page's end.
"$@" over "$folder/file" "$size" > "$folder/answers" << 'LINES'
size 0
write 0 8190 48454c4c4f
read 0 8188 9
fsync 0
LINES

before=$(dd if="$folder/wanted" bs=1 skip=8188 count=9 status=none | od -An -tx1 | tr -d ' \n')
printf 'size %s\nwrote 5\nbytes %s\nok\n' "$size" "$before" | cmp - "$folder/answers"
cmp -n "$size" "$folder/wanted" "$folder/file"
# What follows is room for more blocks, and has no byte but zeros.
[ -z "$(tail -c +"$((size + 1))" "$folder/file" | tr -d '\0')" ]
echo "over: the file is as dd makes it"
