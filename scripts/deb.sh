#!/usr/bin/env bash
# Makes a Debian package of the proved program, with its man pages, completions, documents and units, and prints its path.
#
# Usage: scripts/deb.sh FOLDER [VAULT] [VERSION]
#
# The package is written into FOLDER, as jibrekt_VERSION_amd64.deb. VAULT is the built program; without it the one that
# scripts/vault.sh builds for any x86-64 processor of the last fifteen years. VERSION is the program's own without a word, with
# -1 behind it. Who makes it is named by DEBFULLNAME and DEBEMAIL in the environment. It needs dpkg-deb, gzip and strip.
#
# Installed, the package has users jibrekt and jibrekt-tunnel and the folder /var/lib/jibrekt; it enables no unit. Removed, it
# leaves users and folder: stores are there.
set -euo pipefail
here=$(cd "$(dirname "$0")/.." && pwd)
[ $# -ge 1 ] && [ $# -le 3 ] || { sed -n '2,4s/^# \?//p' "$0" >&2; exit 2; }
folder=${1%/}
program=${2:-$("$here/scripts/vault.sh" x86-64-v2)}
number=$("$program" --version)
version=${3:-${number#vault }-1}
work=$(mktemp -d)
trap 'rm -rf "$work"' EXIT
root=$work/root
documents=$root/usr/share/doc/jibrekt
maker="${DEBFULLNAME:-Jibrekt} <${DEBEMAIL:-jibrekt@jibrekt.invalid}>"
umask 022

strip -o "$work/vault" "$program"
DESTDIR=$root ZSH_FUNCTIONS=zsh/vendor-completions "$here/scripts/install.sh" /usr "$work/vault" >"$work/made"
gzip -9n "$root"/usr/share/man/man?/*
rm "$documents/LICENSE"

cat >"$documents/copyright" <<'TEXT'
Format: https://www.debian.org/doc/packaging-manuals/copyright-format/1.0/
Upstream-Name: Jibrekt

Files: *
TEXT
{
    echo "Copyright: $(sed -n 's/^Copyright (c) //p' "$here/LICENSE")"
    echo "License: Expat"
    sed -n '/^Permission/,$s/^$/./;/^Permission/,$s/^/ /p' "$here/LICENSE"
} >>"$documents/copyright"

{
    echo "jibrekt ($version) unstable; urgency=medium"
    echo
    echo "  * What each version brought is told in changelog.gz beside this."
    echo
    echo " -- $maker  $(date -uR -r "$here/CHANGES.md")"
} | gzip -9n >"$documents/changelog.Debian.gz"
gzip -9n <"$documents/CHANGES.md" >"$documents/changelog.gz"
rm "$documents/CHANGES.md"

install -d "$root/DEBIAN"
cat >"$root/DEBIAN/control" <<TEXT
Package: jibrekt
Version: $version
Architecture: amd64
Maintainer: $maker
Installed-Size: $(du -sk "$root/usr" | cut -f1)
Depends: libc6, passwd
Recommends: nftables, openssh-client
Suggests: openssh-server, python3, man-db
Conflicts: vault
Section: admin
Priority: optional
Description: shared, deduplicating backup repository, proved
 Several machines back up into one store. One program, vault, is the store's
 server and its client over TCP. Each write and each deletion carries a lock's
 token, so a client whose lock was removed can change nothing, however late
 its messages come.
 .
 It is proved that each snapshot in the store has all its data there and
 spells the names and bytes that were handed to its backup, whatever befalls
 clients, messages and locks. It has no passwords and no encryption: who
 reaches the port can read and delete all.
TEXT

cat >"$root/DEBIAN/postinst" <<'TEXT'
#!/bin/sh
set -e
# user NAME: a user of the system who has no shell
user() {
    getent passwd "$1" >/dev/null || useradd --system --user-group --no-create-home --home-dir "$2" --shell /usr/sbin/nologin "$1"
}
if [ "$1" = configure ]; then
    user jibrekt /var/lib/jibrekt
    user jibrekt-tunnel /nonexistent
    [ -d /var/lib/jibrekt ] || install -d -o jibrekt -g jibrekt -m 700 /var/lib/jibrekt
    if systemctl daemon-reload 2>/dev/null; then
        # a server may be killed at any time; clients that were told --retry go on
        deb-systemd-invoke try-restart jibrekt-serve.service || true
    fi
    echo "jibrekt: /usr/share/doc/jibrekt/MANUAL.md tells how to begin, under 'A daily job'"
fi
TEXT
cat >"$root/DEBIAN/prerm" <<'TEXT'
#!/bin/sh
set -e
units="jibrekt-backup.timer jibrekt-prune.timer jibrekt-check.timer jibrekt-serve.service jibrekt-tunnel.service jibrekt-guard.service"
if [ "$1" = remove ]; then
    if systemctl daemon-reload 2>/dev/null; then
        deb-systemd-invoke stop $units || true
    fi
    # as well where no systemd runs: their links would lead nowhere
    systemctl --no-reload disable $units >/dev/null 2>&1 || true
fi
TEXT
cat >"$root/DEBIAN/postrm" <<'TEXT'
#!/bin/sh
set -e
# users and /var/lib/jibrekt stay: stores are there
systemctl daemon-reload 2>/dev/null || true
TEXT
chmod 755 "$root"/DEBIAN/{postinst,prerm,postrm}
(cd "$root" && find usr -type f -exec md5sum {} + | sort -k 2) >"$root/DEBIAN/md5sums"

package=$folder/jibrekt_${version}_amd64.deb
mkdir -p "$folder"
dpkg-deb --root-owner-group --build "$root" "$package" >"$work/made"
echo "$package"
