#!/bin/bash
# Builds the crate beside the port; `--help` says how.
set -euo pipefail
here=$(dirname "$(realpath "$0")")

usage() {
  cat <<'TEXT'
build.sh --crate DIR [options]    the crate from DIR, a folder with its published files (DIR/src/..), with stand-ins for what they lean on
build.sh --registry [options]     the crate from the registry, iceberg = "=0.10.1" with all it needs (UNTRIED: needs a network that this was not built in)
build.sh --no-crate [options]     without the crate: the benchmark of filters alone, which needs nothing but cargo

  --lib FILE        the port's static library (default: ../target/staticlib/libweighpick_c.a; `tools/staticlib weighpick_c` makes it)
  --out OUT         everything that is built goes below OUT (default: ../target/compare), nothing is installed
  --package NAME    build this one program of rust/ (default: all; `filters` with --no-crate)
  --profile NAME    cargo profile: release (overflow checks on, the default) or bench-crate (cargo's ordinary release)
  --test            run the tests of rust/beside, rust/compare and of the stand-in for chrono, too (profile release; not with --no-crate)

The last line of the output is the folder of the programs; progress goes to standard error. Ends with 2 if anything is wrong.
With --crate, Debian's packages of the real crates are downloaded by name (apt-get download; `apt-get update` first on a fresh machine) and unpacked below OUT. STANDINS.md says what stands in for what.
TEXT
}

say() { echo "build.sh: $*" >&2; }
fail() { say "$@"; exit 2; }

crate= registry= alone= package= test= profile=release
lib=$here/../target/staticlib/libweighpick_c.a
out=$here/../target/compare
while [ $# -gt 0 ]; do
  case $1 in
    --crate | --lib | --out | --package | --profile) [ -n "${2:-}" ] || fail "$1 needs a value" ;;
  esac
  case $1 in
    --crate) crate=$2; shift 2 ;;
    --registry) registry=yes; shift ;;
    --no-crate) alone=yes; shift ;;
    --lib) lib=$2; shift 2 ;;
    --out) out=$2; shift 2 ;;
    --package) package=$2; shift 2 ;;
    --profile) profile=$2; shift 2 ;;
    --test) test=yes; shift ;;
    -h | --help) usage; exit ;;
    *) say "no option $1"; usage >&2; exit 2 ;;
  esac
done
case ${crate:+crate}${registry:+registry}${alone:+alone} in
  crate | registry) ;;
  alone) [ -z "$test" ] && [ "${package:=filters}" = filters ] || fail "--no-crate builds filters alone" ;;
  '') say "--crate, --registry or --no-crate is missing"; usage >&2; exit 2 ;;
  *) fail "--crate, --registry and --no-crate exclude each other" ;;
esac
[ -z "$crate" ] || [ -f "$crate/src/spec/transform.rs" ] || fail "no published files of the crate in $crate: there is no $crate/src/spec/transform.rs"
command -v cargo >/dev/null || fail "cargo is not on the PATH"

# The port's static library.
if [ ! -e "$lib" ]; then
  command -v rt >/dev/null && [ "$(realpath -m "$lib")" = "$(realpath -m "$here/../target/staticlib/libweighpick_c.a")" ] ||
    fail "no $lib: run \`tools/staticlib weighpick_c\` in the repository first"
  say "no $lib yet: tools/staticlib weighpick_c"
  (cd "$here/.." && tools/staticlib weighpick_c) >&2 || fail "tools/staticlib weighpick_c failed"
fi
WEIGHPICK_LIB=$(realpath "$lib")
WEIGHPICK_LIB_DIR=$(dirname "$WEIGHPICK_LIB")
export WEIGHPICK_LIB WEIGHPICK_LIB_DIR

# A fresh copy of the sources below OUT, the port's Rust crate among them; times are kept, so that cargo rebuilds only what changed.
mkdir -p "$out" || fail "cannot make $out"
out=$(realpath "$out")
work=$out/rust${registry:+-registry}${alone:+-alone}
rm -rf "$work"
cp -rp "$here/rust" "$work"
mkdir "$work/weighpick"
cp -rp "$here"/../bindings/rust/{Cargo.toml,build.rs,src,examples} "$work/weighpick"
export CARGO_TARGET_DIR=$out/target${registry:+-registry}${alone:+-alone}

# Debian's packages of the real crates, unpacked below OUT.
debian_crates() {
  local packages="chrono fnv serde serde-derive serde-json serde-bytes ordered-float uuid itertools array-init anyhow once-cell
    num-traits num-integer autocfg itoa ryu either syn quote proc-macro2 unicode-ident"
  mkdir -p "$out/debs" "$out/vendor"
  for p in $packages; do
    if ! compgen -G "$out/debs/librust-$p-dev_*.deb" >/dev/null; then
      say "fetching librust-$p-dev"
      (cd "$out/debs" && apt-get download "librust-$p-dev" >/dev/null 2>&1) ||
        fail "cannot fetch librust-$p-dev (apt-get update first?)"
    fi
    dpkg-deb -x "$out"/debs/librust-"$p"-dev_*.deb "$out/vendor"
  done
}

# The published files at their module paths beside the glue's files, byte for byte.
published=
assemble() {
  cp -rp "$work/iceberg-glue" "$work/iceberg"
  published=$(cd "$crate" && find src -name '*.rs' | sort)
  for p in $published; do
    [ ! -e "$work/iceberg/$p" ] || fail "glue and published files both have $p"
    mkdir -p "$(dirname "$work/iceberg/$p")"
    cp -p "$crate/$p" "$work/iceberg/$p"
  done
}

unchanged() {
  for p in $published; do cmp "$crate/$p" "$work/iceberg/$p" || fail "$p is not as published"; done
}

if [ -n "$registry" ]; then
  # the same programs; the crate's line in the workspace manifest is another, and nothing stands in
  rm -rf "$work/.cargo" "$work/Cargo.lock" "$work/iceberg-glue" "$work/standins"
  sed -i -e 's/"iceberg", //' -e 's/^iceberg = .*/iceberg = "=0.10.1"/' "$work/Cargo.toml"
  offline=
elif [ -n "$alone" ]; then
  # what has no dependency but on its neighbours
  rm -rf "$work"/{.cargo,Cargo.lock,iceberg-glue,standins,beside,compare,bench}
  sed -i -e 's/^members = .*/members = ["sheets", "timing", "plain", "filters"]/' -e '/^iceberg = /d' "$work/Cargo.toml"
  offline=--offline
else
  crate=$(realpath "$crate")
  debian_crates
  assemble
  unchanged
  offline=--offline
  export CARGO_HOME=$out/cargo-home
fi

say "building in $work"
(cd "$work" && cargo build $offline --profile "$profile" ${package:+--package "$package"}) || fail "the build failed"
if [ -n "$test" ]; then
  (cd "$work" && cargo test $offline --release --package beside --package compare) || fail "a test failed"
  [ -n "$registry" ] || (cd "$work/standins/chrono" && cargo test $offline --release) || fail "a test failed"
fi
unchanged
[ -z "$crate" ] || echo "$(wc -w <<<"$published") published files, unchanged before and after the build"
echo "$CARGO_TARGET_DIR/$profile"
