#!/bin/sh
# package.sh PROGRAM FOLDER: makes of a built smilplay a Debian package and a tar, both in FOLDER, with its manual page, completion,
# examples and pages. Without dpkg-deb the tar alone is made. The same files give the same bytes: times are those of the last commit, or
# SOURCE_DATE_EPOCH.
set -eu

if [ $# -ne 2 ] || [ ! -x "$1" ]; then
    echo "usage: package.sh PROGRAM FOLDER" >&2
    exit 2
fi
top=$(cd "$(dirname "$0")/.." && pwd)
program=$(realpath "$1")
mkdir -p "$2"
folder=$(cd "$2" && pwd)
version=$(cat "$top/VERSION")
architecture=$(dpkg --print-architecture 2> /dev/null || uname -m)
SOURCE_DATE_EPOCH=${SOURCE_DATE_EPOCH:-$(git -C "$top" log -1 --format=%ct 2> /dev/null || echo 0)}
export SOURCE_DATE_EPOCH

made=$(mktemp -d)
trap 'rm -rf "$made"' EXIT
root=$made/smilplay-$version-$architecture
pages=$root/usr/share/doc/smilplay

install -D -m 755 "$program" "$root/usr/bin/smilplay"
install -D -m 644 "$top/completion/smilplay.bash" "$root/usr/share/bash-completion/completions/smilplay"
install -D -m 644 "$top/completion/_smilplay" "$root/usr/share/zsh/vendor-completions/_smilplay"
install -D -m 644 "$top/completion/smilplay.fish" "$root/usr/share/fish/vendor_completions.d/smilplay.fish"
install -d "$root/usr/share/man/man1" "$pages"
gzip -9 -n < "$top/docs/smilplay.1" > "$root/usr/share/man/man1/smilplay.1.gz"
cp "$top/README.md" "$top/CHANGELOG.md" "$top/VERSION" "$pages"
cp -R "$top/docs" "$top/examples" "$top/editors" "$pages"
rm "$pages/docs/smilplay.1"
find "$pages" -name __pycache__ -prune -exec rm -r {} +
find "$root" -type d -exec chmod 755 {} +
find "$root/usr/share" -type f -exec chmod 644 {} +

tar -C "$made" --sort=name --owner=0 --group=0 --numeric-owner --mtime="@$SOURCE_DATE_EPOCH" -c "$(basename "$root")" \
    | gzip -9 -n > "$folder/smilplay-$version-$architecture.tar.gz"
echo "$folder/smilplay-$version-$architecture.tar.gz"

if command -v dpkg-deb > /dev/null; then
    mkdir "$root/DEBIAN"
    cat > "$root/DEBIAN/control" << END
Package: smilplay
Version: $version
Architecture: $architecture
Maintainer: Tenphsar maintainers <maintainers@users.noreply.tenphsar.example>
Depends: libc6 (>= 2.34)
Installed-Size: $(du -k -s "$root/usr" | cut -f 1)
Section: video
Priority: optional
Description: timing engine for SMIL presentations
 smilplay resolves when the elements of a multimedia presentation begin and
 end, after the timing model of SMIL 3.0, and tells how their states change.
 It opens no media and has no clock of its own: a player holds it by pipes.
END
    find "$root" -exec touch -h -d "@$SOURCE_DATE_EPOCH" {} +
    dpkg-deb --root-owner-group --build "$root" "$folder/smilplay_${version}_$architecture.deb" > /dev/null
    echo "$folder/smilplay_${version}_$architecture.deb"
fi
