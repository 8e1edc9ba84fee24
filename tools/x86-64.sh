# How to build for x86-64, the only processor that the kit compiles for, and how to run what was built. ./curve, .ci/run,
# tests/run and bench/run source this file from the root of the repository.
#
# Compilers and packages have the same names on both processors. On Arm (aarch64) the packages marked amd64 are of a foreign
# architecture, and what was built runs under qemu's emulator. ROCKGINGHAM_EMULATOR=qemu-x86_64 uses the emulator on x86-64
# too, to test there what an Arm machine runs.

case $(uname -m) in
x86_64) emulator=${ROCKGINGHAM_EMULATOR:-} ;;
*) emulator=${ROCKGINGHAM_EMULATOR:-qemu-x86_64} ;;
esac
# Exported, since the tests and the bench start programs themselves.
export ROCKGINGHAM_EMULATOR=$emulator

compiler=x86_64-linux-gnu-gcc
rust_target=x86_64-unknown-linux-gnu

# Runs a program that was built for x86-64.
run() { ${emulator:+"$emulator"} "$@"; }

say() { echo "$0: $*" >&2; }
fail() { say "$*"; exit 1; }

# ---- What is needed. For each thing: whether it is there, and the Debian packages that provide it.

links() { # COMPILER WORDS...
    local program status=0
    program=$(mktemp)
    echo 'int main(void) { return 0; }' | "$1" -x c - "${@:2}" -o "$program" 2>/dev/null || status=1
    rm -f "$program"
    return $status
}

packages_run='qemu-user libc6:amd64'
have_run() { [ -z "$emulator" ] || { [ -n "$(command -v "$emulator")" ] && [ -e /lib64/ld-linux-x86-64.so.2 ]; }; }

packages_c='gcc-x86-64-linux-gnu libc6-dev:amd64'
have_c() { links "$compiler"; }

packages_murmurhash='libmurmurhash-dev:amd64'
have_murmurhash() { links "$compiler" -lmurmurhash; }

# The Rust on the path, if it has the standard library for x86-64, otherwise Debian's. `rust` is the directory of its commands.
packages_rust='cargo rustc libstd-rust-dev:amd64'
have_rust() {
    local folder libraries
    for folder in "$(dirname "$(command -v cargo)")" /usr/bin; do
        libraries=$("$folder/rustc" --print target-libdir --target $rust_target 2>/dev/null) || continue
        if [ -x "$folder/cargo" ] && [ -n "$(find "$libraries" -name 'libstd-*.rlib' 2>/dev/null)" ]; then
            rust=$folder
            return 0
        fi
    done
    return 1
}

# Instructions are counted by a plugin, which is built for the machine's own processor.
packages_count='qemu-user gcc libc6-dev'
have_count() { [ -n "$(command -v qemu-x86_64)" ] && links cc; }

# Installs those of the named things that are missing, and nothing else.
need() { # THING...
    local packages complaint=''
    packages=$(missing "$@")
    [ -n "$packages" ] || return 0
    [ "$(id -u)" = 0 ] || fail "not installed, since only root can install packages:" $packages
    say installing $packages
    install_packages $packages
    packages=$(missing "$@")
    [ -z "$packages" ] || fail "could not install:" $packages "($complaint)"
}

# Prints the packages that are not installed, of those named things that are missing.
missing() { # THING...
    local thing package packages
    for thing in "$@"; do
        if ! "have_$thing"; then
            packages=packages_$thing
            for package in ${!packages}; do installed "$package" || echo "$package"; done
        fi
    done | sort -u
}

installed() { dpkg-query -W -f '${db:Status-Status}\n' "$1" 2>/dev/null | grep -qx installed; }

# Standard input may be a trace, so apt-get must not read it.
get() { # WORDS-FOR-APT-GET...
    local said
    if said=$(DEBIAN_FRONTEND=noninteractive apt-get -q "$@" </dev/null 2>&1); then return 0; fi
    complaint=$(grep -m 1 '^E:' <<<"$said" || tail -n 1 <<<"$said")
    return 1
}

install_packages() { # PACKAGE...
    local words=(install -y --no-install-recommends --no-upgrade "$@")
    if [ "$(dpkg --print-architecture)" != amd64 ]; then dpkg --add-architecture amd64; fi
    get "${words[@]}" || { get update || true; get "${words[@]}"; } || true
}

# ---- What is built.

# Proves and builds what rt makes of a crate, and copies it to a file in target/, if that file is missing or older than a source.
# Progress is shown on standard error. rt keeps its own work in crates/NAME/out.
made() { # FILE CRATE WORDS-FOR-RT...
    local file=$1 folder=crates/$2 log=$PWD/target/made.log begun
    if [ -e "$file" ] && [ -z "$(find crates/*/* crates.txt -name out -prune -o -newer "$file" -print -quit)" ]; then return 0; fi
    [ -n "$(command -v rt)" ] || fail "rt, the command of the Rattle kit, is not on the path"
    say "proving and building $file, which takes some minutes"
    mkdir -p "$(dirname "$file")"
    begun=$(date +%s.%N)
    (cd "$folder" && rt "${@:3}" </dev/null) 2>&1 | tee "$log" | { grep --line-buffered '^rt: ' >&2 || true; } ||
        fail "not built; $log says why"
    cp "$folder/out/$(basename "$file")" "$file"
    touch -d "@$begun" "$file"
}
# For every processor of x86-64: without --cpu, rt builds for those of the second level, with SSE4.2.
made_program() { made target/bin/curve curve run --cpu x86-64; }
made_library() { made target/staticlib/libdriver.a driver lib --cpu x86-64; }

# Builds the Rust program in a folder. `built` is its path.
build_rust() { # FOLDER NAME
    have_rust
    RUSTC=$rust/rustc CARGO_TARGET_X86_64_UNKNOWN_LINUX_GNU_LINKER=$compiler \
        "$rust/cargo" build --quiet --offline --locked --release --target $rust_target --manifest-path "$1/Cargo.toml"
    built=$1/target/$rust_target/release/$2
}
