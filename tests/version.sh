#!/usr/bin/env bash
# The version is one: in the header, in the definition and the code of igb_version, in rust/, as the newest of CHANGES.md, and, where ./build
# has made them, in dist/'s files for pkg-config and CMake. What the linked library answers is asked from C and Rust (tests/library.sh).
cd "$(dirname "$0")/.." || exit 2
version=$(sed -n 's/^version = "\([0-9]*\.[0-9]*\.[0-9]*\)"$/\1/p' rust/Cargo.toml)
IFS=. read -r major minor patch <<<"$version"
[ -n "$patch" ] || { echo "version: rust/Cargo.toml has none"; exit 1; }
[ "$minor" -lt 100 ] && [ "$patch" -lt 100 ] || { echo "version: $version does not fit into one number"; exit 1; }

# is WHERE FOUND EXPECTED
is() {
    [ "$2" = "$3" ] || { echo "version: $1 has '$2' and rust/Cargo.toml $version"; exit 1; }
}
macro() {
    sed -n "s/^#define IGB_VERSION_$1 \([0-9]*\)$/\1/p" include/igbezolum.h
}
is include/igbezolum.h "$(macro MAJOR).$(macro MINOR).$(macro PATCH)" "$version"
is crates/igbezolum/specs/Version.antt "$(sed -n 's/^version_number = version_of //p' crates/igbezolum/specs/Version.antt)" "$major $minor $patch"
is crates/igbezolum/src/version.rt "$(sed -n 's/^const VERSION: u32 = \([0-9]*\);$/\1/p' crates/igbezolum/src/version.rt)" $((major * 10000 + minor * 100 + patch))
is rust/Cargo.lock "$(awk '/^name = "igbezolum"$/{on = 1} on && /^version/{gsub(/"/, ""); print $3; exit}' rust/Cargo.lock)" "$version"
is CHANGES.md "$(sed -n 's/^## \([0-9]*\.[0-9]*\.[0-9]*\):.*/\1/p' CHANGES.md | head -1)" "$version"
is README.md "$(sed -n 's/.*find_package(igbezolum \([0-9.]*\)).*/\1/p' README.md)" "$major.$minor"
pc=dist/lib/pkgconfig/igbezolum.pc cmake=dist/lib/cmake/igbezolum/igbezolumConfigVersion.cmake
if [ -e "$cmake" ]; then
    is "$pc" "$(sed -n 's/^Version: //p' "$pc")" "$version"
    is "$cmake" "$(sed -n 's/^set(PACKAGE_VERSION "\(.*\)")$/\1/p' "$cmake")" "$version"
fi
echo "version: $version everywhere"
