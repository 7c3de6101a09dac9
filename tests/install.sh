#!/usr/bin/env bash
# What `./build --prefix DIR` installs, on what `rt run` and `rt lib` built: the programs in a folder that was moved, the shared library
# (its name, what it exports, a host on it), and hosts by pkg-config and by CMake. What needs a tool that is not here is left out.
cd "$(dirname "$0")/.." || exit 2
room=$(mktemp -d) || exit 2
trap 'rm -rf "$room"' EXIT
failed() {
    [ ! -s "$room/log" ] || cat "$room/log"
    echo "install: $*"
    exit 1
}
has() {
    command -v "$1" >/dev/null 2>&1 && return
    echo "install: $1 is not here: what needs it is left out"
    return 1
}
ring=examples/surface_ring.cnf
version=$(sed -n 's/^version = "\(.*\)"/\1/p' rust/Cargo.toml)

for words in "--prefix" "--none" "--prefix $room/a b"; do
    # shellcheck disable=SC2086
    ./build $words >"$room/log" 2>&1
    [ $? -eq 2 ] || failed "./build $words does not end with 2"
done
./build --prefix "$room/first" >"$room/log" 2>&1 || failed "./build --prefix failed"
./build --prefix "$room/first" >"$room/log" 2>&1 || failed "./build --prefix failed the second time"
there=$room/moved
mv "$room/first" "$there"
found=$(cd "$there" && find . -type f | sort | tr '\n' ' ')
shared=$there/lib/libigbezolum.so.0
expected="./bin/claims ./bin/groups ./bin/shorter ./bin/table ./bin/why ./bin/witness ./include/igbezolum.h ./lib/cmake/igbezolum/igbezolumConfig.cmake \
./lib/cmake/igbezolum/igbezolumConfigVersion.cmake ./lib/libigbezolum.a ./lib/libigbezolum.so.0 ./lib/pkgconfig/igbezolum-shared.pc \
./lib/pkgconfig/igbezolum.pc ./libexec/igbezolum/program ./libexec/igbezolum/show_claims ./libexec/igbezolum/show_groups ./libexec/igbezolum/show_shorter ./libexec/igbezolum/show_witness ./libexec/igbezolum/table ./libexec/igbezolum/why \
./libexec/igbezolum/words.txt "
if [ ! -e "$shared" ]; then
    echo "install: the shared library was left out: what needs it is left out"
    expected=${expected/.\/lib\/libigbezolum.so.0 .\/lib\/pkgconfig\/igbezolum-shared.pc /}
fi
[ "$found" = "$expected" ] || failed "there is: $found"

# the programs, through a link, with no rt in sight
ln -s "$there/bin/why" "$room/why"
PATH=/usr/bin:/bin "$there/bin/table" $ring >"$room/out" 2>"$room/log" || failed "the installed table does not answer"
cmp -s "$room/out" <(target/bin/table <$ring) || failed "the installed table prints something else"
"$room/why" $ring -1 >"$room/out" 2>"$room/log"
[ $? -eq 22 ] || failed "the installed why does not end with 22"
"$there/bin/witness" $ring 1 >"$room/out" 2>"$room/log"
[ $? -eq 1 ] && [ "$(cat "$room/out")" = "refused 14 place 0" ] && grep -q "not free" "$room/log" || failed "the installed witness does not say what it refuses"
"$there/bin/groups" examples/encoder.groups >"$room/out" 2>"$room/log" || failed "the installed groups does not answer"
cmp -s "$room/out" <(target/bin/show_groups <examples/encoder.groups) || failed "the installed groups prints something else"
echo "install: the programs answer where they are moved to"

if [ -e "$shared" ]; then
    if has readelf; then
        named=$(readelf -dW "$shared" | grep -E 'SONAME|NEEDED')
        case $named in *NEEDED*) failed "the shared library names others: $named" ;; *"[libigbezolum.so.0]"*) ;; *) failed "its name is: $named" ;; esac
        readelf -lW "$shared" | grep -q 'GNU_STACK.* RW ' || failed "the shared library asks for a stack that can be run"
    fi
    if has nm; then
        declared=$(grep -o '^[a-z0-9_]* igb_[a-z_]*(' include/igbezolum.h | sed 's/.* \(.*\)(/\1/' | sort)
        [ "$(nm -D --defined-only "$shared" | awk '{print $3}' | sort)" = "$declared" ] || failed "the shared library exports: $(nm -D --defined-only "$shared")"
        [ "$(nm -D --undefined-only "$shared" | awk '{print $2}' | sort | tr '\n' ' ')" = "memcpy memset " ] || failed "the shared library asks for: $(nm -D --undefined-only "$shared")"
    fi
fi

shown=$(target/bin/table <$ring | sed -n 's/^\([0-9]*\) forced \(on\|off\) held by clause \([0-9]*\)$/switch \1 is always \2, held by rule \3/p')
# says WHAT HOST: a host says which switches are forced
says() {
    [ "$("$2" $ring)" = "$shown" ] || failed "$1 says: $("$2" $ring)"
}
if has cc && has pkg-config; then
    export PKG_CONFIG_PATH=$there/lib/pkgconfig
    for package in igbezolum igbezolum-shared; do
        [ -e "$there/lib/pkgconfig/$package.pc" ] || continue
        [ "$(pkg-config --modversion $package)" = "$version" ] || failed "pkg-config has another version of $package"
        # shellcheck disable=SC2046
        cc -o "$room/$package" examples/forced.c $(pkg-config --cflags --libs $package) >"$room/log" 2>&1 || failed "no host by pkg-config's $package"
    done
    says "a host of the archive" "$room/igbezolum"
    if [ -e "$shared" ]; then
        "$room/igbezolum-shared" $ring >/dev/null 2>&1 && failed "a host of the shared library does not need it"
        LD_LIBRARY_PATH=$there/lib says "a host of the shared library" "$room/igbezolum-shared"
    fi
    echo "install: hosts by pkg-config say what is forced"
fi
if [ -e "$shared" ] && has cc && has cmake; then
    cmake -S tests/cmake -B "$room/cmake" -DCMAKE_PREFIX_PATH="$there" -DWANTED="${version%.*}" -DSOURCE="$PWD/examples/forced.c" >"$room/log" 2>&1 &&
        cmake --build "$room/cmake" >>"$room/log" 2>&1 || failed "no host by CMake"
    says "a host by CMake" "$room/cmake/forced"
    says "a host of the shared library by CMake" "$room/cmake/forced_shared"
    cmake -S tests/cmake -B "$room/other" -DCMAKE_PREFIX_PATH="$there" -DWANTED=99.0 -DSOURCE="$PWD/examples/forced.c" >/dev/null 2>&1 &&
        failed "CMake takes $version for 99.0"
    echo "install: hosts by CMake say what is forced"
fi
exit 0
