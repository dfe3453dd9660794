#!/usr/bin/env bash
# version.sh VERSION..: one version everywhere. VERSION prints the number of the library that was linked; it is the header's, in both forms, that
# of the definition in crates/, that of the programs' --version, the one that pkg-config will say, and the one that README.md says this is.
. "$(dirname "$0")/script.sh"
cd "$top"
said() { # WHAT EXPECTED FOUND
    [ "$2" = "$3" ] || fail "the header is of $version, and $1 says '$3' instead of '$2'"
}
version=$(header_version)
[[ $version =~ ^(0|[1-9][0-9]*)\.(0|[1-9][0-9]?)\.(0|[1-9][0-9]?)$ ]] || fail "the header's version is '$version'"
number=$((BASH_REMATCH[1] * 10000 + BASH_REMATCH[2] * 100 + BASH_REMATCH[3]))
said NDUSHAVIRE_VERSION_NUMBER "$number" "$(sed -n 's/^#define NDUSHAVIRE_VERSION_NUMBER \([0-9]*\) .*/\1/p' include/ndushavire.h)"
linked=$("$@") || fail "the library that was linked says '$linked', and the header $number"
said 'the library that was linked' "$number" "$linked"
said crates/ndushavire/specs/Version.antt "${version//./ }" "$(sed -n 's/^version = number_of //p' crates/ndushavire/specs/Version.antt)"
said crates/arguments/src/lib.rt "$version" "$(sed -n 's/^ *files::put(rt, b" \([0-9.]*\)\\n");$/\1/p' crates/arguments/src/lib.rt)"
for file in packaging/ndushavire{,_sh}.pc.in; do said "$file" @VERSION@ "$(sed -n 's/^Version: //p' "$file")"; done # the header's, by packaging/install.sh
said 'packaging/ndushavire_sh.pc.in of the other' 'ndushavire = @VERSION@' "$(sed -n 's/^Requires: //p' packaging/ndushavire_sh.pc.in)"
! grep -q '#define NDUSHAVIRE_.*VERSION' include/ndushavire_sh.h || fail 'the second header has a version of its own'
said README.md "$version" "$(grep -o -E '\*\* This is [0-9]+\.[0-9]+\.[0-9]+' README.md | sed 's/.* //')"
echo "version.sh: $version, $number, everywhere"
