#!/bin/sh
# Makes a Debian package of the built program in the folder FOLDER, and prints its path.
#
#     deploy/deb.sh FOLDER
#
# The program is crates/idxtool/out/idxtool, or what the environment variable IDXTOOL says. MAINTAINER may be set.
set -eu
here=$(cd "$(dirname "$0")" && pwd)
if [ $# -ne 1 ]; then echo "usage: deb.sh FOLDER" >&2; exit 1; fi
program=${IDXTOOL:-$here/../crates/idxtool/out/idxtool}
version=$("$program" --version | cut -d ' ' -f 2)
architecture=$(dpkg --print-architecture)
tree=$(mktemp -d)
trap 'rm -rf "$tree"' EXIT
chmod 755 "$tree"
DESTDIR=$tree "$here/install.sh" /usr
gzip -9n "$tree/usr/share/man/man1/idxtool.1"
install -d -m 755 "$tree/etc/idxtool" "$tree/DEBIAN"
cat > "$tree/DEBIAN/control" <<END
Package: idxtool
Version: $version
Section: science
Priority: optional
Architecture: $architecture
Maintainer: ${MAINTAINER:-idxtool <root@localhost>}
Depends: libc6, libgcc-s1
Suggests: nginx-light, python3
Installed-Size: $(du -sk "$tree/usr" | cut -f 1)
Description: write, read and serve datasets of the ViSUS IDX format
 A parallel writer of raw volumes into hierarchical Z order, and a server that
 answers with any box of them between two levels, as mod_visus does.
END
package=$1/idxtool_${version}_$architecture.deb
dpkg-deb -Zgzip --build --root-owner-group "$tree" "$package" > /dev/null
echo "$package"
