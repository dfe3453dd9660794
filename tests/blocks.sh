# blocks.sh, to be sourced: bytes and blocks of a file, as tables.sh and vectors.sh damage them.
get_byte() { od -An -tu1 -j "$2" -N 1 "$1" | tr -d ' '; } # FILE PLACE
set_byte() { printf %b "\\x$(printf %02x "$3")" | dd of="$1" bs=1 seek="$2" conv=notrunc status=none; } # FILE PLACE BYTE
flip() { set_byte "$1" "$2" $(($(get_byte "$1" "$2") ^ $3)); } # FILE PLACE BITS
copy_block() { dd if="$1" of="$2" bs=512 skip="$3" seek="$4" count=1 conv=notrunc status=none; } # FROM TO BLOCK BLOCK

# Gives a block the check word that it should have, so that only another rule can find it bad.
mend() { # FILE BLOCK
    local word sum=0 place
    for word in $(od -An -v -tu4 --endian=big -j $((512 * $2)) -N 508 "$1"); do sum=$((sum + word)); done
    for place in 0 1 2 3; do set_byte "$1" $((512 * $2 + 508 + place)) $((-sum >> (24 - 8 * place) & 255)); done
}
