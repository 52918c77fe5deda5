#!/bin/sh
# Copies the store of a server that is at work, or of none: examples/backup.sh FOLDER COPY. COPY is a new folder, which nobody else may read.
#
# The copy opens with all that was answered before this began. It is made again if the server went over to its other bank meanwhile, which the first
# 13 bytes of both files show: the gate and the generation of each bank (docs/PROTOCOL.md, "Banks"). It is made as COPY.part.XXXXXX, a folder that no other
# backup has, and is COPY once both files are on the disk: a copy that cannot be finished is removed. If COPY is there by then, that is an error.
set -eu
umask 077

heads() {
    head -q -c 13 "$1/left.bank" "$1/right.bank" | od -A n -t x1
}

if [ -e "$2" ]; then
    echo "backup: $2 is there already" >&2
    exit 1
fi
part=
trap 'rm -rf "$part"' EXIT
trap 'exit 1' HUP INT TERM
part=$(mktemp -d "$2.part.XXXXXX")
while
    before=$(heads "$1")
    cp "$1/left.bank" "$1/right.bank" "$part" || exit 1
    [ "$(heads "$1")" != "$before" ]
do
    echo "backup: the server went over to its other bank, so once more" >&2
done
sync "$part/left.bank" "$part/right.bank" "$part"
mv -T "$part" "$2"
trap - EXIT
sync "$(dirname "$2")"
