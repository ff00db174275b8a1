#!/usr/bin/env bash
# build.sh: Debian packages and a tarball of what was built and proved, with nothing but Debian's tools (gcc, dpkg-dev) and no network.
#
#   release/build.sh [--trial] [OUTPUT]      writes into OUTPUT (release/out), which is made anew
#
# It wants, of this folder: crates/bulwynef/out/bulwynef, which `rt ci` leaves; c/out/checkproof and c/out/libbulwynef.a, which c/run.py
# makes. The programs are packed as they are. They must be those of docs/builds.txt where that is of this text and kit, and name the
# version, else nothing is packed. With --trial they may be anything, also unproved ones, and the packages' version says `~trial`.
#
# Two runs over one commit and the same builds write the same bytes. OUTPUT/SHA256SUMS has the sum of each file, and says in its head the
# commit, the kit and the logic. `sha256sum -c SHA256SUMS` passes over that head.
set -euo pipefail
export LC_ALL=C.UTF-8 TZ=UTC DPKG_DEB_THREADS_MAX=1
umask 022
top=$(cd "$(dirname "$0")/.." && pwd)
here=$top/release
trial=
if [ "${1:-}" = --trial ]; then trial="~trial"; shift; fi
out=$(realpath -m "${1:-$here/out}")
cd "$top"

version=$(cat VERSION)
debian=$version$trial-1
arch=$(dpkg --print-architecture)
triplet=$(dpkg-architecture -qDEB_HOST_MULTIARCH)
: "${SOURCE_DATE_EPOCH:=$(git log -1 --format=%ct)}"
export SOURCE_DATE_EPOCH
program=crates/bulwynef/out/bulwynef checkproof=c/out/checkproof archive=c/out/libbulwynef.a

stop() { echo "build.sh: $*" >&2; exit 1; }

for file in $program $checkproof $archive; do
    [ -f "$file" ] || stop "$file is not there: rt ci makes the programs, c/library.py and c/run.py the rest"
done
compared="not compared with any sums, as a trial"
if [ -z "$trial" ]; then
    checks/reference/versions.py $program >&2 || stop "the version is not the same everywhere"
    status=0
    second_opinion/sums.py compare >&2 || status=$?
    case $status in
    0) compared="are those of docs/builds.txt" ;;
    4) compared="not compared, since docs/builds.txt is of another text or kit" ;;
    *) stop "the builds are not those of docs/builds.txt" ;;
    esac
fi
room=$(mktemp -d)
trap 'rm -rf "$room"' EXIT
rm -rf "$out"
mkdir -p "$out"

# put MODE FROM TO: a copy at a place
put() { install -D -m "$1" "$2" "$3"; }

# packed FROM TO: a compressed copy
packed() { gzip -9n < "$1" > "$room/packed.gz" && put 644 "$room/packed.gz" "$2"; }

# filled FILE [WORD=TEXT..]: a text of release/ in which each @WORD@ has its text
filled() {
    local file=$1 it words
    shift
    words=(-e "s|@VERSION@|$version|g" -e "s|@DEBIAN@|$debian|g" -e "s|@ARCH@|$arch|g" -e "s|@DATE@|$(date -R -d "@$SOURCE_DATE_EPOCH")|g")
    for it in "$@"; do words+=(-e "s|@${it%%=*}@|${it#*=}|g"); done
    sed "${words[@]}" "$here/$file"
}

# The shared library: all that the static one has, of which only the calls of the header are seen outside.
shared=$room/libbulwynef.so.$version
cc -shared -s -o "$shared" -Wl,-soname,libbulwynef.so.1 -Wl,--version-script=c/bulwynef.map \
    -Wl,--whole-archive "$archive" -Wl,--no-whole-archive -Wl,--no-undefined,--gc-sections,-z,relro,-z,now,--build-id=sha1
nm -D --defined-only --format=posix "$shared" | sed -n 's/@.* [TDBR] .*//p' | sort > "$room/exported"
sed -n 's/^ \(bulwynef_[a-z_]*\)@.*/\1/p' "$here/libbulwynef1.symbols" | sort > "$room/kept"
sed -nE 's/^[a-z_0-9]+ (bulwynef_[a-z_]+)\(.*/\1/p' c/bulwynef.h | sort > "$room/declared"
diff "$room/declared" "$room/exported" >&2 || stop "the shared library does not export just the calls of c/bulwynef.h"
diff "$room/kept" "$room/exported" >&2 || stop "the shared library does not export just the names of release/libbulwynef1.symbols"

# wants FILE: what a program or a library wants of the system, as Debian's packages say it
mkdir -p "$room/shlibs/debian"
printf 'Source: bulwynef\n\nPackage: bulwynef\nArchitecture: any\n' > "$room/shlibs/debian/control"
wants() { (cd "$room/shlibs" && dpkg-shlibdeps -O -e "$1" 2> /dev/null | sed -n 's/^shlibs:Depends=//p'); }

# pack PACKAGE ARCHITECTURE [WANTED]: makes the package of the folder $room/PACKAGE
pack() {
    local at=$room/$1 doc=$room/$1/usr/share/doc/$1 size
    put 644 "$here/copyright" "$doc/copyright"
    filled changelog.Debian > "$room/changelog"
    packed "$room/changelog" "$doc/changelog.Debian.gz"
    packed CHANGELOG.md "$doc/changelog.gz"
    mkdir -p "$at/DEBIAN"
    find "$at" -path "$at/DEBIAN" -prune -o -type d -exec chmod 755 {} +
    size=$(du -ks --apparent-size --exclude=DEBIAN "$at" | cut -f1)
    filled "control/$1" "SHLIBS=${3:-}" | sed "/^Description:/i Installed-Size: $size" > "$at/DEBIAN/control"
    (cd "$at" && find . -type f -not -path './DEBIAN/*' -printf '%P\0' | sort -z | xargs -0 md5sum > DEBIAN/md5sums)
    find "$at" -exec touch -h -d "@$SOURCE_DATE_EPOCH" {} +
    dpkg-deb --root-owner-group -Zxz --build "$at" "$out/$1_${debian}_$2.deb" > /dev/null
}

at=$room/bulwynef
put 755 $program "$at/usr/bin/bulwynef"
put 755 $checkproof "$at/usr/bin/checkproof"
sed '1s|.*|#!/usr/bin/python3|' second_opinion/check.py > "$room/check.py"
put 755 "$room/check.py" "$at/usr/bin/bulwynef-check"
for page in bulwynef checkproof bulwynef-check; do packed docs/$page.1 "$at/usr/share/man/man1/$page.1.gz"; done
put 644 docs/bulwynef.bash "$at/usr/share/bash-completion/completions/bulwynef"
put 644 "$here/overrides/bulwynef" "$at/usr/share/lintian/overrides/bulwynef"
for file in nodes.dir two_witnesses.1.store two_witnesses.2.store wrong_output.store wrong_output.proof wrong_output.bundle; do
    put 644 examples/$file "$at/usr/share/doc/bulwynef/examples/$file"
done
pack bulwynef "$arch" "$(wants "$top/$program")"

at=$room/libbulwynef1 lib=usr/lib/$triplet
put 644 "$shared" "$at/$lib/libbulwynef.so.$version"
ln -s "libbulwynef.so.$version" "$at/$lib/libbulwynef.so.1"
put 644 "$here/libbulwynef1.symbols" "$at/DEBIAN/symbols"
echo "libbulwynef 1 libbulwynef1 (>= $version~)" > "$at/DEBIAN/shlibs"
echo "activate-noawait ldconfig" > "$at/DEBIAN/triggers"
pack libbulwynef1 "$arch" "$(wants "$shared")"

# develop FOLDER LIB INCLUDE PREFIX UP: what a compiler wants, at a place where the headers lie UP from CMake's files
develop() {
    put 644 $archive "$1/$2/libbulwynef.a"
    put 644 c/bulwynef.h "$1/$3/bulwynef.h"
    put 644 cpp/bulwynef.hpp "$1/$3/bulwynef.hpp"
    for file in bulwynef-config.cmake bulwynef-config-version.cmake; do
        filled $file "INCLUDEDIR=$5" > "$room/$file"
        put 644 "$room/$file" "$1/$2/cmake/bulwynef/$file"
    done
    filled bulwynef.pc "LIBDIR=$4$2" "INCLUDEDIR=$4$3" > "$room/bulwynef.pc"
    put 644 "$room/bulwynef.pc" "$1/$2/pkgconfig/bulwynef.pc"
}

at=$room/libbulwynef-dev
develop "$at" "$lib" usr/include / ../../../../include
ln -s libbulwynef.so.1 "$at/$lib/libbulwynef.so"
for file in c/example.c cpp/first.cpp; do put 644 $file "$at/usr/share/doc/libbulwynef-dev/examples/${file#*/}"; done
pack libbulwynef-dev "$arch"

at=$room/python3-bulwynef site=usr/lib/python3/dist-packages
for file in python/src/bulwynef/*.py python/src/bulwynef/py.typed; do put 644 "$file" "$at/$site/bulwynef/${file##*/}"; done
(cd python && python3 -B -c 'import building; print(building.ABOUT, end="")') > "$room/METADATA"
put 644 "$room/METADATA" "$at/$site/bulwynef-$version.dist-info/METADATA"
for script in postinst prerm; do put 755 "$here/python3-bulwynef.$script" "$at/DEBIAN/$script"; done
pack python3-bulwynef all

# The tarball, for who has no Debian: one folder, which may lie anywhere.
at=$room/tarball/bulwynef-$version
for file in bulwynef checkproof bulwynef-check; do put 755 "$room/bulwynef/usr/bin/$file" "$at/bin/$file"; done
sed -i '1s|.*|#!/usr/bin/env python3|' "$at/bin/bulwynef-check"
for page in bulwynef checkproof bulwynef-check; do put 644 docs/$page.1 "$at/share/man/man1/$page.1"; done
put 644 docs/bulwynef.bash "$at/share/bash-completion/completions/bulwynef"
develop "$at" lib include '${pcfiledir}/../../' ../../../include
put 644 "$shared" "$at/lib/libbulwynef.so.$version"
ln -s "libbulwynef.so.$version" "$at/lib/libbulwynef.so.1"
ln -s libbulwynef.so.1 "$at/lib/libbulwynef.so"
for file in LICENSE-MIT LICENSE-APACHE CHANGELOG.md docs/INSTALL.md; do put 644 $file "$at/${file#*/}"; done
put 644 "$here/copyright" "$at/copyright"
for file in python/src/bulwynef/*.py python/src/bulwynef/py.typed; do put 644 "$file" "$at/python/bulwynef/${file##*/}"; done
examples=("$room"/bulwynef/usr/share/doc/bulwynef/examples/* c/example.c cpp/first.cpp)
for file in "${examples[@]}"; do put 644 "$file" "$at/examples/${file##*/}"; done
find "$at" -type d -exec chmod 755 {} +
tar --sort=name --mtime="@$SOURCE_DATE_EPOCH" --owner=0 --group=0 --numeric-owner --format=gnu -C "$room/tarball" -cf - \
    "bulwynef-$version" | gzip -9n > "$out/bulwynef-$version$trial-linux-$(uname -m).tar.gz"

# What was packed, and of what
changed=$(git status --porcelain --untracked-files=no)
{
    echo "# bulwynef $version${trial:+, a trial: its programs may be unproved}"
    echo "# commit $(git rev-parse HEAD)${changed:+, and changes that no commit has}"
    second_opinion/sums.py | grep -E '^(kit|sources) ' | sed 's/^/# /'
    echo "# builds $compared"
    echo "# compiler $(cc --version | head -n 1)"
    for file in $program $checkproof $archive; do echo "# packed $(sha256sum $file)"; done
    echo "# packed $(sha256sum "$shared" | cut -d' ' -f1)  libbulwynef.so.$version"
    (cd "$out" && sha256sum -- *)
} > "$room/sums"
put 644 "$room/sums" "$out/SHA256SUMS"
cat "$out/SHA256SUMS"
