#!/usr/bin/env bash
# try.sh: installs what release/build.sh makes, and uses it as somebody would who has nothing else.
#
#   release/try.sh [--trial]              in a fresh Debian 12, made by debootstrap: it installs the packages, runs steps.sh there, takes them
#                                         off again, and compares the files of before and after. Wants root
#   release/try.sh --folder [--trial]     in a folder, into which the packages are laid by `dpkg -x`, and in one of the tarball
#
# First it builds the packages twice, in two folders, which must be the same bytes, and lintian must find nothing. What is missing of Debian's
# tools it installs; it downloads nothing but Debian's packages. --trial is build.sh's. It ends with 1 where something fails.
set -euo pipefail
export LC_ALL=C.UTF-8
here=$(cd "$(dirname "$0")" && pwd)
mode=debian trial=()
for word in "$@"; do
    case $word in
    --folder) mode=folder ;;
    --trial) trial=(--trial) ;;
    *) sed -n '2,12p' "$0" >&2; exit 2 ;;
    esac
done
room=$(mktemp -d)
trap 'rm -rf "$room"' EXIT

# tools COMMAND=PACKAGE..: installs the packages of the commands that are missing
tools() {
    local missing=() it
    for it in "$@"; do command -v "${it%=*}" > /dev/null || missing+=("${it#*=}"); done
    [ ${#missing[@]} = 0 ] && return
    apt-get update > /dev/null && apt-get install -y --no-install-recommends "${missing[@]}" > /dev/null
}
tools dpkg-shlibdeps=dpkg-dev cc=gcc c++=g++ lintian=lintian man=man-db pkg-config=pkg-config cmake=cmake make=make

"$here/build.sh" "${trial[@]}" "$room/packages" > /dev/null
(umask 077 && "$here/build.sh" "${trial[@]}" "$room/again" > /dev/null)
diff -r "$room/packages" "$room/again"
(cd "$room/packages" && sha256sum --quiet -c SHA256SUMS)
# They are for no archive of Debian, so their changelog closes no wish for a package.
lintian --allow-root --fail-on error,warning,info,pedantic -E --pedantic --suppress-tags initial-upload-closes-no-bugs "$room"/packages/*.deb
echo "try.sh: built twice, the same bytes; lintian finds nothing"

# What steps.sh needs beside the packages: the page with the walk
mkdir "$room/steps"
cp "$here/steps.sh" "$here/walk.py" "$here/../docs/OPERATORS.md" "$room/steps/"

in_folders() {
    local at=$room/root lib
    for package in "$room"/packages/*.deb; do dpkg -x "$package" "$at"; done
    lib=$at/usr/lib/$(dpkg-architecture -qDEB_HOST_MULTIARCH)
    env ROOT="$at" PATH="$at/usr/bin:$PATH" LD_LIBRARY_PATH="$lib" PYTHONPATH="$at/usr/lib/python3/dist-packages" PYTHONDONTWRITEBYTECODE=1 \
        MANPATH="$at/usr/share/man" PKG_CONFIG_LIBDIR="$lib/pkgconfig" PKG_CONFIG_SYSROOT_DIR="$at" CMAKE_PREFIX_PATH="$at/usr" \
        sh "$room/steps/steps.sh" "$room/steps"
    tar -C "$room" -xf "$room"/packages/*.tar.gz
    at=$(echo "$room"/bulwynef-*)
    env ROOT="$at" PATH="$at/bin:$PATH" LD_LIBRARY_PATH="$at/lib" PYTHONPATH="$at/python" PYTHONDONTWRITEBYTECODE=1 MANPATH="$at/share/man" \
        PKG_CONFIG_PATH="$at/lib/pkgconfig" CMAKE_PREFIX_PATH="$at" COMPLETIONS="$at/share/bash-completion/completions" \
        EXAMPLES="$at/examples" SOURCES="$at/examples" sh "$room/steps/steps.sh" "$room/steps"
    echo "try.sh: the packages do in a folder what they should, and so does the tarball"
}

if [ $mode = folder ]; then
    in_folders
    exit
fi

tools debootstrap=debootstrap
at=$room/debian
debootstrap --variant=minbase --include=gcc,g++,libc6-dev,pkg-config,cmake,make,man-db,python3 bookworm "$at" > "$room/debootstrap.log" ||
    { tail -n 5 "$room/debootstrap.log"; exit 1; }
trap 'umount "$at/proc" 2> /dev/null || true; rm -rf --one-file-system "$room"' EXIT
mount -t proc proc "$at/proc"
cp -r "$room/packages" "$room/steps" "$at/root/"
in_debian() {
    chroot "$at" env -i HOME=/root PATH=/usr/sbin:/usr/bin:/sbin:/bin LC_ALL=C.UTF-8 DEBIAN_FRONTEND=noninteractive "$@"
}
# What dpkg, apt, the loader and man keep of their own does not count.
files() {
    local own=(-path ./var/lib/dpkg -o -path ./var/cache -o -path ./var/log -o -path ./root -o -path ./tmp -o -path ./proc)
    (cd "$at" && find . -xdev \( "${own[@]}" \) -prune -o -print | sort)
}
all=(bulwynef libbulwynef1 libbulwynef-dev python3-bulwynef)
files > "$room/before"
in_debian sh -c 'dpkg -i /root/packages/*.deb' > "$room/dpkg.log" || { cat "$room/dpkg.log"; exit 1; }
in_debian sh /root/steps/steps.sh /root/steps
in_debian dpkg --remove "${all[@]}" >> "$room/dpkg.log"
files > "$room/removed"
in_debian dpkg --purge "${all[@]}" >> "$room/dpkg.log" 2>&1
files > "$room/purged"
for kept in removed purged; do
    diff "$room/before" "$room/$kept" || { echo "try.sh: that is left where the packages were $kept"; exit 1; }
done
if in_debian dpkg -l | grep bulwynef; then echo "try.sh: dpkg still knows of that"; exit 1; fi
echo "try.sh: installed in a fresh Debian, used, removed and purged, and nothing is left"
