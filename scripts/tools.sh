#!/usr/bin/env bash
# Installs the programs that the trials use, on Debian as root. Exit status 0 if all of them are there then, 1 if this machine can't
# have them.
set -u
packages="binutils debootstrap dpkg-dev fish fuse3 gcc iproute2 libc6-dev lintian mount python3-fusepy strace systemd util-linux zsh"
[ "$(id -u)" = 0 ] && command -v apt-get >/dev/null || exit 1
installs() { DEBIAN_FRONTEND=noninteractive timeout 300 apt-get install -y -qq --no-install-recommends $packages >/dev/null 2>&1; }
installs || { timeout 120 apt-get update -qq >/dev/null 2>&1 && installs; } || exit 1
