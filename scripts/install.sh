#!/usr/bin/env bash
# Installs vault under a folder, with its man pages, completions, documents, examples and units for systemd.
#
# Usage: scripts/install.sh PREFIX [VAULT]
#
# PREFIX is as /usr/local or "$HOME/.local". VAULT is the built program; without it the one that scripts/vault.sh builds, which
# is proved first where it isn't yet. With DESTDIR in the environment all goes below that folder, as for a package. What is there
# from an earlier version is replaced; no store is touched, no user is made, and no unit is enabled. What it made it prints.
set -euo pipefail
here=$(cd "$(dirname "$0")/.." && pwd)
[ $# -ge 1 ] && [ $# -le 2 ] || { sed -n '2,4s/^# \?//p' "$0" >&2; exit 2; }
case $1 in
    /*) prefix=${1%/} ;;
    *) echo "the folder has to begin with /: $1" >&2; exit 2 ;;
esac
program=${2:-$("$here/scripts/vault.sh")}
root=${DESTDIR:-}$prefix
share=$root/share
documents=$share/doc/jibrekt

# place TARGET FILE [MODE]: the file as this one, for all to read
place() {
    install -D -m "${3:-644}" "$2" "$1"
    echo "$1"
}

# gather FOLDER FILE..: the files, under their names
gather() {
    local file
    for file in "${@:2}"; do place "$1/${file##*/}" "$file"; done
}

place "$root/bin/vault" "$program" 755
cd "$here"
gather "$share/man/man1" docs/man/*.1
gather "$share/man/man7" docs/man/*.7
gather "$documents" README.md CHANGES.md LICENSE docs/*.md
gather "$documents/examples" examples/systemd/*.nft examples/systemd/*.conf scripts/recover.py
place "$share/bash-completion/completions/vault" examples/completion/vault.bash
place "$share/${ZSH_FUNCTIONS:-zsh/site-functions}/_vault" examples/completion/_vault
place "$share/fish/vendor_completions.d/vault.fish" examples/completion/vault.fish
gather "$root/lib/systemd/system" examples/systemd/*.service examples/systemd/*.timer
sed -i "s,/usr/local/bin/vault,$prefix/bin/vault,g" "$root"/lib/systemd/system/jibrekt-*.service
