#!/usr/bin/env bash
# tools/install into a folder of its own, moved once, and what is built from it: programs in C, by pkg-config, static and shared, in C++, in Rust and in Python; emtrun and the command emt; the
# manual pages, which must name every call, verb, option and kind of line. Then the archive of tools/release: its checksums, version and kit, and that making it twice gives the same bytes.
# What needs an x86-64 processor or a missing package is left out, and said: on Arm programs in C are linked by the kit's linker, and Python asks the calls over a pipe (tools/bridge).
# EMTRUN=PATH and LIBEMT=PATH take this program and this archive and make none. Closing line: N passed, M failed.
set -u
cd "$(dirname "$0")/.." || exit 1

passed=0
failed=0
work=$(mktemp -d)
trap 'rm -rf "$work"' EXIT
. tools/machine.sh
export PYTHONDONTWRITEBYTECODE=1

stop() {
    echo "$1"
    echo "$passed passed, $((failed + 1)) failed"
    exit 1
}

check() { # what it is, what came, what was to come
    if [ "$2" = "$3" ]; then
        passed=$((passed + 1))
    else
        echo "$1: '$2' and not '$3'"
        failed=$((failed + 1))
    fi
}

left_out() { echo "left out: $1"; }
have() { command -v "$1" >/dev/null 2>&1; }

for tool in rt $compiler rustc python3; do
    have $tool || stop "tests/install.sh needs '$tool'"
done
[ -n "${EMTRUN:-}" ] || tools/emtrun >"$work/rt" 2>&1 || { tail -n 5 "$work/rt"; stop "emtrun is not made"; }
[ -n "${LIBEMT:-}" ] || tools/libemt >"$work/rt" 2>&1 || { tail -n 5 "$work/rt"; stop "libemt.a is not made"; }
emtrun=${EMTRUN:-target/bin/emtrun}
libemt=${LIBEMT:-target/staticlib/libemt.a}
proved="proved and compiled by: $(rt version)"
[ -z "${EMTRUN:-}${LIBEMT:-}" ] || proved="the program or the archive was given, and not proved here"
version=$(sed -n 's/^#define EMT_VERSION "\(.*\)"$/\1/p' include/emt.h)

# ---- into a folder with a file of somebody else's; twice, as for a later version; then the folder is moved
mkdir -p "$work/first/bin"
echo mine >"$work/first/bin/other"
for time in first second; do
    tools/install "$work/first" >"$work/installed" 2>"$work/said" || { cat "$work/said"; stop "tools/install fails the $time time"; }
done
sort "$work/installed" >"$work/told"
{ echo "$work/first/bin/other" && cat "$work/told"; } | sort >"$work/all"
find "$work/first" ! -type d | sort | cmp -s - "$work/all"
check "what is told is what is there, and no other file" $? 0
check "a file of somebody else's" "$(cat "$work/first/bin/other")" mine
check "no folder" "$(tools/install 2>&1; echo $?)" "usage: tools/install PREFIX
2"
prefix=$work/moved
mv "$work/first" "$prefix"

# ---- from a clone with a file of the user's in it, and from one with a change
if commit=$(git rev-parse HEAD 2>/dev/null) && git clone -q . "$work/clone" 2>/dev/null; then
    source_of() { (cd "$work/clone" && EMTRUN=$1 LIBEMT=$2 tools/install "$work/other" >/dev/null 2>"$work/said" && sed -n 2p "$work/other/share/doc/emt/VERSION"); }
    cp tools/install "$work/clone/tools/install"
    (cd "$work/clone" && git add -A && git -c user.name=x -c user.email=x commit -q --allow-empty -m x)
    commit=$(cd "$work/clone" && git rev-parse HEAD)
    echo mine >"$work/clone/energisation.lst"
    check "a listing in the clone" "$(source_of "$(readlink -f "$emtrun")" "$(readlink -f "$libemt")")" "source: $commit"
    echo '# mine' >>"$work/clone/desk/emt/axes.py"
    check "a change in the clone" "$(source_of "$(readlink -f "$emtrun")" "$(readlink -f "$libemt")")" "source: $commit, changed since"
else
    left_out "which commit is told: this is no clone"
fi

# ---- what is installed is what was proved, with the words beside it
cmp -s "$emtrun" "$prefix/bin/emtrun"
check "the program" $? 0
for member in $(ar t "$libemt"); do
    ar p "$libemt" "$member" >"$work/member"
    ar p "$prefix/lib/libemt.a" "$member" 2>/dev/null | cmp -s - "$work/member"
    check "the archive's $member" $? 0
done
check "the archive's members" "$(ar t "$prefix/lib/libemt.a" | tr '\n' ' ')" "$(ar t "$libemt" | tr '\n' ' ')emt_words.o "
check "the kit" "$(tail -n 1 "$prefix/share/doc/emt/VERSION")" "$proved"
run "$prefix/bin/emtrun" <studies/floating.txt >"$work/listing"
tail -n "$(wc -l <studies/floating.end)" "$work/listing" | cmp -s - studies/floating.end
check "the program's listing" $? 0

# ---- programs
fifty="node 2 after step 1: 50.0 V"
refused="line 2: VALUE (3), a value is out of its range, or the conductance that it gives is below 1 nS or over 1 S"
flags=(-std=c11 -Wall -Wextra -Werror "-I$prefix/include")
compile "$work/in_c" examples/caller.c "$prefix/lib/libemt.a" || stop "examples/caller.c does not compile"
check "C, the archive" "$(run "$work/in_c")" "$fifty"
compile "$work/told" tests/install/told.c "$prefix/lib/libemt.a" || stop "tests/install/told.c does not compile"
check "C, the words" "$(run "$work/told")" "$refused"

for library in "$prefix/lib/libemt.so" "$prefix/lib/libemt.so.${version%.*}" "$prefix/lib/libemt.so.$version"; do
    check "$library is there" "$(test -s "$library"; echo $?)" 0
done
nm=nm
[ "$(uname -m)" = x86_64 ] || for nm in x86_64-linux-gnu-nm llvm-nm; do ! have $nm || break; done
$nm -D --defined-only "$prefix/lib/libemt.so" | sed -n 's/.* T //p' | grep -vxE '_init|_fini' | sort >"$work/exported"
{ $nm --defined-only "$libemt" 2>/dev/null | sed -n 's/.* T //p'; printf '%s\n' emt_answer_name emt_answer_words emt_answer_place emt_version; } | sort | cmp -s - "$work/exported"
check "the shared library has the archive's calls and the words" $? 0
asks() { readelf -d "$1" | grep -c "libemt.so.${version%.*}]"; }

if [ "$(uname -m)" != x86_64 ]; then
    lib=$kit/toolchain/lib
    for source in examples/caller.c:"$fifty" tests/install/told.c:"$refused"; do
        object "$work/shared.o" "${source%%:*}" || stop "${source%%:*} does not compile"
        "$kit/toolchain/bin/ld.lld" -pie -dynamic-linker /lib64/ld-linux-x86-64.so.2 -o "$work/shared" "$lib"/{Scrt1,crti,crtbeginS}.o "$work/shared.o" -L "$prefix/lib" -lemt "$lib"/{libc.so.6,libc_nonshared.a,libgcc.a} \
            "$lib"/{crtendS,crtn}.o || stop "${source%%:*} does not link to the shared library"
        check "C, the shared library, ${source%%:*}" "$("${emulator[@]}" "${loader[0]}" --library-path "$lib:$prefix/lib" "$work/shared")" "${source#*:}"
        check "it asks for the shared library, ${source%%:*}" "$(asks "$work/shared")" 1
    done
    LIBEMT=$prefix/lib/libemt.a tools/bridge "$work/bridge/emt-bridge" || stop "the bridge is not made"
    export EMT_BRIDGE=$work/bridge/emt-bridge
    left_out "C++ and Rust from the installed library, and Python that loads it, on $(uname -m); Python asks the calls over a pipe"
else
    linked=("-I$prefix/include" "-L$prefix/lib" -lemt)
    if have pkg-config; then
        export PKG_CONFIG_PATH=$prefix/lib/pkgconfig
        check "pkg-config, version" "$(pkg-config --modversion emt)" "$version"
        # shellcheck disable=SC2207
        linked=($(pkg-config --cflags --libs emt))
    else
        left_out "pkg-config (Debian: pkg-config): its flags are given by hand"
    fi
    for source in examples/caller.c:"$fifty" tests/install/told.c:"$refused"; do
        gcc -std=c11 -Wall -Wextra -Werror -o "$work/shared" "${source%%:*}" "${linked[@]}" "-Wl,-rpath,$prefix/lib" || stop "${source%%:*} does not link to the shared library"
        check "C, the shared library, ${source%%:*}" "$("$work/shared")" "${source#*:}"
        check "it asks for the shared library, ${source%%:*}" "$(asks "$work/shared")" 1
    done
    if have g++; then
        g++ -x c++ -Wall -Wextra -Werror -o "$work/in_cpp" tests/install/told.c "${linked[@]}" "-Wl,-rpath,$prefix/lib" || stop "tests/install/told.c does not compile as C++"
        check "C++" "$("$work/in_cpp")" "$refused"
    else
        left_out "C++: there is no g++"
    fi
    for kind in static dylib; do
        rustc -L "$prefix/lib" -l $kind=emt -C "link-arg=-Wl,-rpath,$prefix/lib" -o "$work/in_rust" examples/caller.rs || stop "examples/caller.rs does not compile"
        check "Rust, $kind" "$("$work/in_rust")" "$fifty"
    done
    check "Python, the library alone" "$(python3 tests/install/caller.py "$prefix/lib/libemt.so")" "$fifty"
fi

# ---- the command emt and its module
run "$prefix/bin/emtrun" <studies/energisation.txt >"$work/listing"
(cd / && "$prefix/bin/emt" run "$OLDPWD/studies/energisation.txt" 2>/dev/null) | cmp -s - "$work/listing"
check "emt run" $? 0
check "emt --version" "$(cd / && "$prefix/bin/emt" --version | cut -d' ' -f1-2)" "emt $version"
export PYTHONPATH=$prefix/lib/python3/dist-packages
check "the module" "$(cd / && python3 -c 'import emt, sys; print(emt.run(sys.argv[1]).v[5][-1])' "$OLDPWD/studies/energisation.txt")" \
    "$(awk -F'\t' '$1 == "v" && $3 == 5 { last = $4 } END { print last }' "$work/listing")"
check "Python" "$(python3 examples/caller.py)" "$fifty
$refused"

# ---- manual pages: read without a warning, and nothing is missing from them
page() { sed 's/\\-/-/g; s/\\f[A-Z]//g' "$prefix/share/man/man${1##*.}/$1"; }
names() { # a page, and words that it must have
    local page=$1 word
    shift
    for word in "$@"; do
        check "$page has $word" "$(page "$page" | grep -cwF -e "$word" | sed 's/^[1-9].*/1/')" 1
    done
}
for file in "$prefix"/share/man/man?/*; do
    check "$(basename "$file"): the version" "$(grep -c "@VERSION@" "$file") $(grep -c "Zanguremi $version" "$file")" "0 1"
    if have groff; then
        check "$(basename "$file"): groff" "$(groff -t -man -ww -rLL=78n -Tutf8 "$file" 2>&1 >/dev/null)" ""
    else
        left_out "reading $(basename "$file"): there is no groff"
    fi
done
names emt.3 $(grep -hoE '\bemt_[a-z_]+\(' include/emt.h include/emt_words.h | tr -d '(' | grep -v _tables | sort -u)
names emtrun.1 study R L C LINE SW SWT VS IS VC done stop bad $(sed -nE 's/^\| ([1-7]|1[4-7]) \| ([A-Z]+) \|.*/\2/p' README.md)
verbs=$("$prefix/bin/emt" --help | sed -nE 's/^    ([a-z]+) .*/\1/p')
check "emt has verbs" "$([ "$(echo "$verbs" | wc -l)" -ge 6 ]; echo $?)" 0
names emt.1 $verbs $(for verb in "" $verbs; do "$prefix/bin/emt" $verb --help; done | grep -oE -e '--[a-z-]+' | sort -u)
# what a line of emt make may begin with, its options, and what the command looks for in the environment
names emt.1 $(python3 -c 'from emt import friendly, kinds
print(*friendly.HEADS, *(kind.word for kind in kinds.KINDS), *(field.option for kind in kinds.KINDS for field in kind.fields if field.option))') \
    $(grep -ohE "environ(\.get\(|\[)'EMT_[A-Z]+" desk/emt/*.py | grep -oE 'EMT_[A-Z]+' | sort -u)

# ---- a release
for time in one two; do
    tools/release "$work/$time" >"$work/said" 2>&1 || { cat "$work/said"; stop "tools/release fails"; }
done
archive=emt-$version-x86_64-linux.tar.gz
cmp -s "$work/one/$archive" "$work/two/$archive"
check "the same bytes again" $? 0
(cd "$work/one" && sha256sum --status -c "$archive.sha256")
check "the archive's checksum" $? 0
mkdir "$work/unpacked"
tar -C "$work/unpacked" -xzf "$work/one/$archive"
cd "$work/unpacked/${archive%.tar.gz}" || stop "the archive has no folder ${archive%.tar.gz}"
sha256sum --status -c SHA256SUMS
check "every file's checksum" $? 0
check "every file has a checksum" "$(find . -type f ! -name SHA256SUMS | wc -l)" "$(wc -l <SHA256SUMS)"
check "the release's kit" "$(tail -n 1 share/doc/emt/VERSION)" "$proved"
check "the release's version" "$(head -n 1 share/doc/emt/VERSION | cut -d, -f1)" "Zanguremi $version"
for file in bin/emt lib/libemt.so lib/libemt.a include/emt.h share/man/man1/emt.1 lib/python3/dist-packages/emt/__init__.py share/doc/emt/docs/DESK.md; do
    check "the release has $file" "$([ -s "$file" ]; echo $?)" 0
done
check "the release's program" "$(run bin/emtrun <share/doc/emt/studies/bank.txt | tail -n 1)" "$(printf 'done\t4000')"

echo "$passed passed, $failed failed"
[ "$failed" -eq 0 ]
