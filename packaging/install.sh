#!/bin/sh
# Copies the folders of this one: ./install.sh [--prefix=PREFIX], into /usr/local if none is given; DESTDIR is put before it. All files
# also work where they are. Nothing is recorded: dpkg and pip can upgrade and remove their packages.
set -eu
prefix=/usr/local
case ${1:-} in --prefix=/*) prefix=${1#*=} ;; ?*) sed -n '2,3s/^# //p' "$0" >&2 && exit 2 ;; esac
[ -n "${DESTDIR:-}" ] || [ "$(uname -sm)" = "Linux @MACHINE@" ] ||
	{ echo "install.sh: these files are for Linux on @MACHINE@, and this is $(uname -sm)" >&2 && exit 1; }
umask 022
cd "$(dirname "$0")"
root=${DESTDIR:-}$prefix
find */ ! -type d | while IFS= read -r file; do
	if [ -x "$file" ]; then mode=755; else mode=644; fi
	install -D -m $mode "$file" "$root/$file"
	[ ! -h "$file" ] || ln -sf "$(readlink "$file")" "$root/$file"
done
sed "s|^prefix=.*|prefix=$prefix|; /^prefix=/s/ /\\\\ /g" lib/pkgconfig/bpfcanon.pc >"$root/lib/pkgconfig/bpfcanon.pc"
[ -n "${DESTDIR:-}" ] || [ "$(id -u)" -ne 0 ] || PATH=$PATH:/sbin:/usr/sbin ldconfig
