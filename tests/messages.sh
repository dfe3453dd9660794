# messages.sh, to be sourced: requests in hexadecimal digits, and the AVPs that call servers put into them, as decide.sh, report.sh and others send them.
# An AVP in hexadecimal digits, filled up to four bytes; FLAGS and DATA are such digits, and VENDOR is - without V. LENGTH is its true
# one unless it is given.
avp() { # CODE FLAGS VENDOR DATA [LENGTH]
    local vendor='' length
    [ "$3" = - ] || printf -v vendor %08X "$3"
    length=$((8 + (${#vendor} + ${#4}) / 2))
    printf '%08X%s%06X%s%s' "$1" "$2" "${5-$length}" "$vendor" "$4"
    printf '%*s' $((-2 * length & 7)) '' | tr ' ' 0
}
text() { printf %s "$1" | od -An -v -tx1 | tr -d ' \n' | tr a-f A-F; }
many() { printf "%0$((2 * $1))d" 0; } # N bytes
word() { printf %08X "$1"; } # a number of 4 bytes
message() { printf '01%06XC0%06X%s0000000100000002%s' $((20 + ${#3} / 2)) "$1" "$2" "$3"; } # COMMAND APPLICATION AVPS
cx=01000000 third=10415
session=$(avp 263 40 - "$(text 'scscf1.isle;1;2')")
both=$(avp 266 40 - 000028AF)$(avp 258 40 - $cx)
application=$(avp 260 40 - "$both")
stateless=$(avp 277 40 - 00000001)
from=$(avp 264 40 - "$(text scscf1.isle)")$(avp 296 40 - "$(text isle)")
front=$session$application$stateless$from$(avp 283 40 - "$(text isle)")
public() { avp 601 C0 $third "$(text "$1")"; }
private() { avp 1 40 - "$(text "$1")"; }
visited=$(avp 600 C0 $third "$(text isle)")
server=$(avp 602 C0 $third "$(text sip:scscf1.isle:6060)")
scheme=$(avp 608 C0 $third "$(text Digest-AKAv1-MD5)")
assigned() { avp 614 C0 $third "$(printf %08X "$1")"; }
available=$(avp 624 C0 $third 00000001)
item=$(avp 612 C0 $third "$scheme")
# Supported-Features 628: bits of a vendor's list, all numbers in decimal or with 0x. With flags 80 and the server's set it is the server's own list.
supported() { avp 628 "$1" $third "$(avp 266 40 - "$(word "${4-$third}")")$(avp 629 80 $third "$(word "${3-1}")")$(avp 630 80 $third "$(word "$2")")"; } # FLAGS BITS [LIST [VENDOR]]
mar() { echo "$front$(private "$1")$(public "$2")$3$(avp 607 C0 $third "$(printf %08X "$4")")$server"; } # USER-NAME PUBLIC-IDENTITY 612 NUMBER
