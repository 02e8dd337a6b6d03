#!/bin/sh
# Installs the library under a temporary prefix and builds programs against it in a folder outside the repository, with what
# pkg-config says: tests/outside.c, and examples/plan.rs by the wrapper. They must print what they should.
# tests/run calls this; TISHKOLAN_LIBRARY is as in ./install.
set -eu
cd "$(dirname "$0")/.."
folder=$(mktemp -d)
trap 'rm -rf "$folder"' EXIT

fail() {
    echo "install: $1"
    exit 1
}

# Into a prefix, and into a folder that is not where it will stand at last.
./install "$folder/prefix" > "$folder/written"
DESTDIR=$folder/package ./install /opt/tishkolan > "$folder/packaged"
[ "$(wc -l < "$folder/written")" = 3 ] || fail 'it does not write three files'
for name in lib/libtishkolan.a include/tishkolan.h lib/pkgconfig/tishkolan.pc; do
    [ -f "$folder/prefix/$name" ] || fail "it writes no $name"
    [ -f "$folder/package/opt/tishkolan/$name" ] || fail "it writes no $name under DESTDIR"
done
grep -qx 'prefix=/opt/tishkolan' "$folder/package/opt/tishkolan/lib/pkgconfig/tishkolan.pc" || fail 'tishkolan.pc speaks of DESTDIR'
for words in '' --help 'a b'; do
    # shellcheck disable=SC2086
    if ./install $words 2> "$folder/usage" || ! grep -q '^usage' "$folder/usage"; then
        fail "it does not say how it is used where it is given '$words'"
    fi
done

# One version, wherever it is said.
version=$(sed -n 's/^Version: //p' "$folder/prefix/lib/pkgconfig/tishkolan.pc")
[ -n "$version" ] || fail 'tishkolan.pc has no version'
grep -qx "version = \"$version\"" wrapper/Cargo.toml || fail "wrapper/Cargo.toml has another version than $version"
[ "$(sed -n 's/^## \([0-9.]*\), .*/\1/p' CHANGELOG.md | head -n 1)" = "$version" ] || fail "CHANGELOG.md does not begin with $version"

export PKG_CONFIG_PATH="$folder/prefix/lib/pkgconfig"
unset TISHKOLAN_LIBRARY_DIR
repository=$PWD
cp tests/outside.c examples/plan.rs "$folder"
cd "$folder"

# shellcheck disable=SC2046
gcc -std=c11 -O2 -Wall -Wextra -Werror -o outside outside.c $(pkg-config --cflags --libs tishkolan)
./outside > printed
diff - printed << 'END' || fail 'tests/outside.c prints something else'
root of 3: 1.7320508075688772
route: 3 cells through (1, 1, 1), cost 3.4641016151377544, verdict 0
route: 3 cells through (1, 1, -1), cost 3.4641016151377544, verdict 0
END
mkdir plan
cat > plan/Cargo.toml << END
[package]
name = "plan"
edition = "2021"

[[bin]]
name = "plan"
path = "../plan.rs"

[dependencies]
tishkolan = { path = "$repository/wrapper" }
END
(cd plan && cargo run --quiet --offline) > printed
diff - printed << 'END' || fail 'examples/plan.rs prints something else'
5 cells: accepted
END
echo "install: tests/outside.c and examples/plan.rs build against tishkolan $(pkg-config --modversion tishkolan) and print what they should"
