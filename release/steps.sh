#!/bin/sh
# steps.sh FOLDER: what a user does with the installed packages. FOLDER has walk.py and the page OPERATORS.md. Run by try.sh; it ends with 1
# at the first step that fails. ROOT lies before /usr where nothing is installed; the tarball has other places for some files.
set -eu
folder=$1
: "${ROOT:=}" "${COMPLETIONS:=$ROOT/usr/share/bash-completion/completions}" "${EXAMPLES:=$ROOT/usr/share/doc/bulwynef/examples}"
: "${SOURCES:=$ROOT/usr/share/doc/libbulwynef-dev/examples}"
work=$(mktemp -d)
step=
trap '[ -z "$step" ] || echo "steps.sh: failed: $step" >&2; rm -rf "$work"' EXIT
said() { step="$1"; }

said "the manual pages"
for page in bulwynef checkproof bulwynef-check; do
    man $page > "$work/page" 2> "$work/warnings"
    grep -q '^NAME' "$work/page"
    [ ! -s "$work/warnings" ]
done

said "the completions"
bash -c '. "$1/bulwynef"; COMP_WORDS=(bulwynef sta) COMP_CWORD=1; _bulwynef; [ "${COMPREPLY[*]}" = status ]' bash "$COMPLETIONS"

said "the walk of OPERATORS"
python3 "$folder/walk.py" "$folder/OPERATORS.md" "$EXAMPLES"

said "a proof, by three programs"
bulwynef check --program tally --directory "$EXAMPLES/nodes.dir" "$EXAMPLES/wrong_output.proof" > "$work/one"
checkproof --program tally "$EXAMPLES/nodes.dir" "$EXAMPLES/wrong_output.proof" > "$work/two"
bulwynef-check --program tally "$EXAMPLES/nodes.dir" "$EXAMPLES/wrong_output.proof" > "$work/three"
grep -q '^exposes 2$' "$work/one"
cmp "$work/one" "$work/two"
cmp "$work/one" "$work/three"

said "a program in C, over the shared library"
# shellcheck disable=SC2046
cc -std=c11 -o "$work/example" "$SOURCES/example.c" $(pkg-config --cflags --libs bulwynef)
"$work/example" > "$work/said"
grep -q '^the proof exposes 2$' "$work/said"

said "the same, over the static library"
libdir=$(pkg-config --variable=libdir bulwynef | sed "s|^/usr|$ROOT/usr|")
# shellcheck disable=SC2046
cc -std=c11 -o "$work/example" "$SOURCES/example.c" $(pkg-config --cflags bulwynef) "$libdir/libbulwynef.a"
env -u LD_LIBRARY_PATH "$work/example" > "$work/said"
grep -q '^the proof exposes 2$' "$work/said"

said "a program in C++"
# shellcheck disable=SC2046
c++ -std=c++17 -o "$work/first" "$SOURCES/first.cpp" $(pkg-config --cflags --libs bulwynef)
[ "$("$work/first" | tail -n 1)" = "the proof exposes 2" ]

said "a program of CMake"
mkdir "$work/cmake"
cat > "$work/cmake/CMakeLists.txt" << 'END'
cmake_minimum_required(VERSION 3.16)
project(try C)
find_package(bulwynef 0.9 REQUIRED)
add_executable(shared ${SOURCES}/example.c)
target_link_libraries(shared bulwynef::bulwynef)
add_executable(static ${SOURCES}/example.c)
target_link_libraries(static bulwynef::static)
END
cmake -DSOURCES="$SOURCES" -S "$work/cmake" -B "$work/cmake/out" > "$work/log" 2>&1 || { cat "$work/log"; exit 1; }
cmake --build "$work/cmake/out" > "$work/log" 2>&1 || { cat "$work/log"; exit 1; }
for program in shared static; do "$work/cmake/out/$program" | grep -q '^the proof exposes 2$'; done

said "Python"
cat > "$work/first.py" << 'END'
from bulwynef import Key, Node, Program, Store, check_proof, directory
first, second = Key.new(), Key.new()
listed = directory({1: [first.public()], 2: [second.public()]})
one, two, liar = Node(listed, 1, first, Program.TALLY), Node(listed, 2, second, Program.TALLY), Node(listed, 2, second, Program.TALLY)
witness = Store(listed, Program.TALLY)
for moment, node in (5, two), (6, liar):
    one.timer(moment)
    witness.take(node.answer(one.message(one.waiting()[-1])))
print("the proof exposes", check_proof(listed, witness.proof(2), Program.TALLY))
END
[ "$(python3 "$work/first.py")" = "the proof exposes 2" ]
python3 -c 'import bulwynef, sys; sys.exit(not bulwynef.__version__)'
step=
echo "steps.sh: each step was done"
