#!/usr/bin/env bash
# release.sh [FOLDER]: makes FOLDER/yalwythen-SYSTEM.tar.gz, by default in this folder, for users without the Rattle
# toolchain. It has the program chanrun, the C library with its headers, and the Rust crate with the proved library in
# it, so that programs are built by `cc` or `cargo` alone. What is missing is proved and built first. The variables
# PROGRAM, CORE and HEAP name a program, a libyalwythen_c.a and a liblibc_c.a that were built elsewhere.
set -eu
out=$(cd "${1:-.}" && pwd)
cd "$(dirname "${BASH_SOURCE[0]}")/.."

core=${CORE:-$PWD/crates/yalwythen_c/out/libyalwythen_c.a}
program=${PROGRAM:-$PWD/crates/chanrun/out/chanrun}
heap=${HEAP:-$(dirname "$(dirname "$(readlink -f "$(command -v rt)")")")/c/liblibc_c.a}
[ -n "${PROGRAM:-}" ] || tools/build.py
[ -n "${CORE:-}" ] || (cd crates/yalwythen_c && rt lib)

place=$(mktemp -d)
trap 'rm -rf "$place"' EXIT
root=$place/yalwythen
system=$(uname -s | tr '[:upper:]' '[:lower:]')-$(uname -m)

# Writes the first page of the tarball.
write_readme() {
  cat >"$root/README.md" <<PAGE
# Yalwythen

Transactional channels for 64-bit Linux, built${commit:+ from commit $commit} for $system.

| Part | What it is |
|---|---|
| \`bin/chanrun\` | checks, replays and runs scripts of channels: [SCRIPTS.md](docs/SCRIPTS.md) |
| \`include\`, \`lib\` | the C library: [C.md](docs/C.md) |
| \`rust\` | the Rust crate with its library: [RUST.md](docs/RUST.md) |
| \`rust/stream\` | the crate that implements \`futures_core::Stream\` for it |

A program in C needs \`cc\` only:

\`\`\`
cc -I yalwythen/include hello.c yalwythen/lib/libyalwythen.a -pthread
\`\`\`

\`PKG_CONFIG_PATH=yalwythen/lib/pkgconfig pkg-config --cflags --libs yalwythen\` prints these flags.

A program in Rust needs \`cargo\` only. It names the crate in its \`Cargo.toml\`:

\`\`\`toml
[dependencies]
yalwythen = { path = "yalwythen/rust" }
\`\`\`

The folder can be moved. [GUARANTEES.md](docs/GUARANTEES.md) says what is proved.
PAGE
}

commit=$(git rev-parse --short HEAD 2>/dev/null || true)
mkdir -p "$root/bin" "$root/docs" "$root/rust/lib"
write_readme
install -m 755 "$program" "$root/bin/chanrun"
install -m 644 docs/*.md "$root/docs"
cp -R docs/decisions docs/pictures docs/reference "$root/docs"

make -s -C bindings/c install PREFIX="$root" BUILD="$place/c" CORE="$core" HEAP="$heap"
# shellcheck disable=SC2016 # pkg-config expands it
sed -i 's|^prefix=.*|prefix=${pcfiledir}/../..|' "$root/lib/pkgconfig/yalwythen.pc"

cp -R bindings/rust/{Cargo.toml,Cargo.lock,CHANGELOG.md,build.rs,src,examples,tests} "$root/rust"
mkdir "$root/rust/stream"
cp -R bindings/rust/stream/{Cargo.toml,src,tests} "$root/rust/stream"
sed -i 's|^readme = .*|readme = "../docs/RUST.md"|' "$root/rust/Cargo.toml"
install -m 644 "$core" "$root/rust/lib/libyalwythen_c.a"
install -m 644 "$heap" "$root/rust/lib/liblibc_c.a"

tar -C "$place" --sort=name --owner=0 --group=0 -czf "$out/yalwythen-$system.tar.gz" yalwythen
echo "$out/yalwythen-$system.tar.gz"
