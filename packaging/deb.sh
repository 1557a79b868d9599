#!/bin/sh
# deb.sh FOLDER  builds a package for Debian of the built program, and writes its name
#
# The program is taken from PROGRAM, if that is set, and else from crates/riemann_server/out. The version is what the
# program says of itself. MAINTAINER is the field of that name, as NAME <ADDRESS>. The same text gives the same package
# where SOURCE_DATE_EPOCH is set or this is a clone: then the time is that of the last commit.
set -eu

[ $# -eq 1 ] || { echo "usage: deb.sh FOLDER" >&2; exit 1; }
here=$(cd "$(dirname "$0")" && pwd)
out=$(cd "$1" && pwd)
PROGRAM=${PROGRAM:-$here/../crates/riemann_server/out/riemann_server}
[ -x "$PROGRAM" ] || { echo "deb.sh: no program at $PROGRAM: build it first" >&2; exit 1; }
SOURCE_DATE_EPOCH=${SOURCE_DATE_EPOCH:-$(git -C "$here" log -1 --format=%ct 2>/dev/null || date +%s)}
export PROGRAM SOURCE_DATE_EPOCH
umask 022

name=riemann-server
version=$("$PROGRAM" --version | sed -n 's/^riemann //p')
maintainer=${MAINTAINER:-Riemann server <riemann@example.org>}
architecture=$(dpkg --print-architecture)
# The newest symbols of the C library that the program asks for.
glibc=$(grep -ao 'GLIBC_[0-9.]*[0-9]' "$PROGRAM" | sed 's/GLIBC_//' | sort -V | tail -n 1)

root=$(mktemp -d)
trap 'rm -rf "$root"' EXIT
chmod 755 "$root"
DESTDIR=$root "$here/install.sh" /usr >/dev/null

# Debian's places and names for what was installed.
mv "$root/usr/lib/systemd" "$root/lib-systemd"
mkdir "$root/lib"
mv "$root/lib-systemd" "$root/lib/systemd"
sed -i '1s|/usr/bin/env python3|/usr/bin/python3|' "$root"/usr/lib/riemann/*
gzip -9n "$root/usr/share/man/man1/riemann.1"
for tool in journal doctor dump event probe reload; do
    ln -s riemann.1.gz "$root/usr/share/man/man1/riemann-$tool.1.gz"
done

docs=$root/usr/share/doc/$name
mkdir -p "$docs" "$root/usr/share/lintian/overrides" "$root/DEBIAN"
cp "$here/debian/copyright" "$docs/copyright"
cp "$here/debian/overrides" "$root/usr/share/lintian/overrides/$name"
cat <<END | gzip -9n >"$docs/changelog.gz"
$name ($version) unstable; urgency=medium

  * Built from the sources of this version.

 -- $maintainer  $(date -u -R -d "@$SOURCE_DATE_EPOCH")
END

for script in postinst prerm postrm; do
    cp "$here/debian/$script" "$root/DEBIAN/$script"
    chmod 755 "$root/DEBIAN/$script"
done
(cd "$root" && find etc -type f | sed 's|^|/|' | sort) >"$root/DEBIAN/conffiles"
(cd "$root" && find . -path ./DEBIAN -prune -o -type f -printf '%P\0' | sort -z | xargs -0 md5sum) >"$root/DEBIAN/md5sums"
cat >"$root/DEBIAN/control" <<END
Package: $name
Version: $version
Architecture: $architecture
Maintainer: $maintainer
Installed-Size: $(du -ks --exclude=DEBIAN "$root" | cut -f1)
Depends: adduser, libc6 (>= $glibc), python3 (>= 3.10)
Conflicts: riemann
Section: net
Priority: optional
Description: event stream server for monitoring, with proved code
 Hosts send events to it over TCP, in the protocol of Riemann. A tree of
 streams decides which of them make a notice, and an index holds the present
 state, which a query asks for. Metrics are whole numbers. Every function of
 the program is proved to meet its contract.
 .
 Notices go to systemd's journal. Programs that send them on by mail, to
 Slack, to PagerDuty and to Alertmanager are part of this package.
END
find "$root" -exec touch -h -d "@$SOURCE_DATE_EPOCH" {} +
package=$out/${name}_${version}_$architecture.deb
dpkg-deb --root-owner-group --build "$root" "$package" >/dev/null
echo "$package"
