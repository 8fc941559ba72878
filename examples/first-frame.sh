#!/usr/bin/env bash
# Has vault answer its first frame: a client asks for a ticket, and gets token 1.
#
# The request, in hexadecimal: the body's length (25), the tag of a ticket (1), the client's instance (16
# bytes), the sequence number (1). The reply: length (33), tag 129, instance and sequence, token 1.
#
# Without a word the program runs as it is, checked while it runs and not yet proved: a minute and a half
# in a fresh clone. With the word `proved` everything is proved first, and the program built: about
# an hour in a fresh clone, once.
set -euo pipefail
cd "$(dirname "$0")/../crates/vault"
request=0000001901010101010101010101010101010101010000000000000001
reply=00000021810101010101010101010101010101010100000000000000010000000000000001

if [ "${1:-}" = proved ]; then
    echo "proving and building vault: about an hour in a fresh clone, once"
    how=run
else
    echo "running vault unproved: a minute and a half in a fresh clone"
    how=try
fi
got=$(echo "$request" | rt "$how" -- frames 2>/dev/null | grep -x "$reply")
echo "request $request"
echo "reply   $got"
