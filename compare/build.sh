# The steps before a comparison; sourced by run, in its folder.

packages="librust-indexmap-dev librust-num-complex-dev librust-thiserror-dev librust-nom-locate-dev
librust-once-cell-dev librust-regex-dev librust-itertools-dev librust-petgraph-dev"
registry=/usr/share/cargo/registry

say() { echo "compare: $*" >&2; }
fail() {
    say "$*"
    exit 2
}

# Debian's packages, where they are missing.
packages() {
    missing=
    command -v cargo >/dev/null || missing="cargo rustc"
    command -v cc >/dev/null || missing="$missing gcc libc6-dev"
    for package in $packages; do
        dpkg -s "$package" >/dev/null 2>&1 || missing="$missing $package"
    done
    [ -n "$missing" ] || return 0
    missing=$(echo $missing)
    [ "$(id -u)" = 0 ] || fail "missing packages; as root: apt-get install -y --no-install-recommends $missing"
    say "installing $missing"
    apt-get update -qq
    DEBIAN_FRONTEND=noninteractive apt-get install -y -qq --no-install-recommends $missing >/dev/null
}

# quil-rs's files, each checked by its digest, among the stand-ins. A published file is the checkout's up to its
# first test module: of a longer file the same first bytes are taken.
sources() {
    sources=${QUIL_RS:-../../shared/docs/src}
    [ -d "$sources/quil-rs/src" ] || fail "no quil-rs/src in $sources; set QUIL_RS"
    rm -rf target/quil-rs
    mkdir -p target
    cp -r quil-rs target/quil-rs
    while read -r digest bytes path; do
        place=target/quil-rs/src/$path
        # A stand-in of that name takes the published file in by include!.
        case $path in
        expression/mod.rs) place=target/quil-rs/src/expression/published.rs ;;
        instruction/declaration.rs | instruction/extern_call.rs)
            place=target/quil-rs/src/instruction/published_${path#instruction/}
            ;;
        esac
        [ ! -e "$place" ] || fail "$path is a stand-in here"
        mkdir -p "$(dirname "$place")"
        head -c "$bytes" "$sources/quil-rs/src/$path" >"$place"
        echo "$digest  $place" | sha256sum -c --quiet >&2 || fail "$path is not quil-rs's at 5a4668c218"
    done <quil-rs.sha256
}

# changeable NAME: oracle or plain, copied so that a sensitivity run can change a line of it.
changeable() {
    rm -rf "target/$1"
    mkdir -p target
    cp -r "$1" "target/$1"
}

# The proved library.
library() {
    command -v rt >/dev/null || fail "no rt on the path: the library is built by the Rattle kit"
    say "proving and building the library (tools/staticlib)"
    ../tools/staticlib >target/staticlib.log 2>&1 || fail "not built: see compare/target/staticlib.log"
}

# An unproved copy of the library: the same code without its contracts, one Rust crate for each of ours.
copy() {
    rm -rf target/copy
    copy_crate console_c
}

copy_crate() {
    [ ! -d "target/copy/$1" ] || return 0
    mkdir -p "target/copy/$1/src"
    needs=$(sed -n "s/^$1: *//p" ../crates.txt)
    {
        printf '[package]\nname = "%s-copy"\nversion = "0.0.0"\nedition = "2021"\n\n' "$1"
        printf '[lib]\nname = "%s"\n\n[dependencies]\n' "$1"
        for needed in $needs; do
            echo "$needed = { path = \"../$needed\", package = \"$needed-copy\" }"
        done
    } >"target/copy/$1/Cargo.toml"
    for file in ../crates/"$1"/src/*.rt; do
        sed -f contracts.sed "$file" >"target/copy/$1/src/$(basename "$file" .rt).rs"
    done
    for needed in $needs; do
        copy_crate "$needed"
    done
}

prepare() {
    packages
    sources
    changeable oracle
    changeable plain
    library
    copy
}

# cargo with Debian's crates and no network.
offline() {
    command=$1
    shift
    cargo "$command" -q -j "${JOBS:-1}" --release --offline \
        --config 'source.crates-io.replace-with="debian"' \
        --config "source.debian.directory=\"$registry\"" "$@"
}

build() { offline build "$@"; }

# The bench lines, 02's counts of journal entries and of nodes, jumps, runs, conversions and literals, by hand, on the plain machine.
by_hand() {
    say "the bench lines, counts, jumps, runs, conversions and literals by hand on the plain machine"
    offline test -p plain >target/by_hand.log 2>&1 || fail "not as the papers say: see compare/target/by_hand.log"
}
