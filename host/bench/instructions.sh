#!/bin/sh
# Prints how many instructions a call of the library takes, counted by
# valgrind: the difference of two runs by the difference of their calls. What
# the caller's loop takes, some twenty, is among them. `copy` is a plain copy of
# the message (memcpy).
#
# The second table holds a move of a message with a checksum to what it cannot do
# without. The moved bytes have a checksum of their own, which is worked out over
# all of them; forward copies the old one, or refreshes it. So `anew` is a
# forward that works it out as well: what forward takes, and what reading takes
# more for the message with its checksum than without. `more` is what the move
# takes beyond that, in plain copies and in the library's `own`, which is what
# forward takes more than read.
#
# The third table is of messages with 16 identifiers that are followed in vain
# through all of the body. `undotted` is a read of the same message without the
# dots, so `followed` is what following takes. By the bytes of the body it should
# stay level.
#
# The fourth table is of pings with 16 sequences of no documents, by the letters of
# their identifiers, of one byte, of two and of three, and no dots. Beside a
# document, `nested`, each of them is looked at for a dot, and `more` is what that
# and the document take.
set -eu
cd "$(dirname "$0")/.."
cargo build --quiet --release --example instructions
program=${CARGO_TARGET_DIR:-target}/release/examples/instructions

# The C library copies many bytes by one instruction that repeats itself, which
# counts once for each byte: here it shall take them by words.
GLIBC_TUNABLES=glibc.cpu.x86_rep_movsb_threshold=1000000
export GLIBC_TUNABLES

# All instructions of a run: the call, the message, how many calls.
counted() {
    valgrind --tool=callgrind --callgrind-out-file=/dev/null "$program" "$@" 2>&1 |
        sed -n 's/.*Collected : //p'
}

# The instructions of one call: the call, the message.
one() {
    few=$(counted "$1" "$2" 10)
    many=$(counted "$1" "$2" 110)
    echo $(((many - few) / 100))
}

sealed=$(mktemp)
dotted=$(mktemp)
plain=$(mktemp)
trap 'rm -f "$sealed" "$dotted" "$plain"' EXIT
printf '%-14s%7s%10s%10s%10s%10s%8s\n' message bytes read forward cleared move copy
"$program" | while read -r name bytes mark body; do
    read=$(one read "$name")
    if [ "$mark" = dotted ]; then
        echo "$name $bytes $body $read $(one undotted "$name")" >> "$dotted"
        continue
    fi
    if [ "$mark" = plain ]; then
        echo "$name $bytes $read" >> "$plain"
        continue
    fi
    forward=$(one forward "$name")
    cleared=$(one cleared "$name")
    move=$(one move "$name")
    copy=$(one copy "$name")
    printf '%-14s%7s%10s%10s%10s%10s%8s\n' \
        "$name" "$bytes" "$read" "$forward" "$cleared" "$move" "$copy"
    if [ "$mark" = sealed ]; then
        anew=$((forward + read - $(one bare "$name")))
        echo "$name $bytes $anew $move $copy $((forward - read))" >> "$sealed"
    fi
done
echo
awk '
    BEGIN {
        printf "%-14s%7s%10s%10s%10s%8s%8s%10s%10s\n",
            "message", "bytes", "anew", "move", "more", "copy", "own", "more/copy", "more/own"
    }
    {
        more = $4 - $3
        printf "%-14s%7d%10d%10d%10d%8d%8d%10.2f%10.2f\n",
            $1, $2, $3, $4, more, $5, $6, more / $5, more / $6
    }
' "$sealed"
echo
awk '
    BEGIN {
        printf "%-14s%7s%7s%10s%10s%10s%15s\n",
            "message", "bytes", "body", "read", "undotted", "followed", "followed/body"
    }
    {
        followed = $4 - $5
        printf "%-14s%7d%7d%10d%10d%10d%15.1f\n",
            $1, $2, $3, $4, $5, followed, followed / $3
    }
' "$dotted"
echo
awk '
    BEGIN { printf "%-14s%7s%10s%10s%10s\n", "identifiers", "bytes", "read", "nested", "more" }
    { letters = $1; sub(/^[^-]*-/, "", letters) }
    $1 ~ /^sequences/ { bytes[letters] = $2; read[letters] = $3 }
    $1 ~ /^nested/ {
        printf "%-14s%7d%10d%10d%10d\n", letters, bytes[letters], read[letters], $3, $3 - read[letters]
    }
' "$plain"
