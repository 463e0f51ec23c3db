#!/bin/sh
# Measures the library against the plain implementation on an arm64 machine
# with Debian's apt: both as x86-64 code, in one program, under one emulator.
#
#   tools/bench-emulated.sh [stub] [rounds]
#
# Run it at the repository's root after `tools/staticlib.sh`. It prints a
# table of executed instructions, which come out the same each time, and, where
# rounds are given, one of times under the emulator, the best of so many rounds.
# With `stub` the plain implementation itself, compiled apart, takes the
# library's place: the ratios then show what the measurement alone can do.
#
# The first time it fetches about 150 MB of Debian packages into target/emulated
# and unpacks them there (600 MB); nothing is installed. They are Debian's rustc
# with the x86-64 standard library, from a release that has 1.95 or newer, and
# the emulator of Debian 12, for whose plugins rust/emulated/count.c is written.
# Linker and C library for x86-64 are the Rattle kit's, found beside `rt`; `cc`
# compiles the plugin.
#
# shellcheck disable=SC2086 # words are to be split where no quotes stand
set -eu

rust_release=${RUST_RELEASE:-forky}
emulator_release=bookworm

subject=library
if [ "${1-}" = stub ]; then
    subject=stub
    shift
fi
rounds=${1:-0}

kit=$(dirname "$(dirname "$(readlink -f "$(command -v rt)")")")/on/aarch64/toolchain
here=$(pwd)/target/emulated
package=rust
mkdir -p "$here"

# fetch DIRECTORY RELEASE PACKAGE...: what the packages need, and they
# themselves, into the directory. A package named +P comes without its needs.
# LIBSTD stands for the package of rustc's own libraries, whose name has the
# version in it.
fetch() {
    directory=$here/$1
    release=$2
    shift 2
    [ -e "$directory/done" ] && return
    rm -rf "$directory"
    mkdir -p "$directory/apt/lists/partial" "$directory/apt/archives/partial" "$directory/debs"
    : >"$directory/apt/status"
    # the archive and the keys that this machine's apt has
    keys=$(dpkg -L debian-archive-keyring | grep '/debian-archive-keyring\.gpg$')
    archive=$(apt-get indextargets --format '$(REPO_URI)' 'Created-By: Packages' | grep -v security | head -1)
    echo "deb [signed-by=$keys] $archive $release main" >"$directory/apt/sources.list"
    cat >"$directory/apt/conf" <<END
Dir::State "$directory/apt";
Dir::State::status "$directory/apt/status";
Dir::Cache "$directory/apt";
Dir::Etc::sourcelist "$directory/apt/sources.list";
Dir::Etc::sourceparts "-";
APT::Architectures "arm64,amd64";
APT::Sandbox::User "root";
END
    (
        export APT_CONFIG="$directory/apt/conf"
        apt-get -qq update
        wanted=
        alone=
        for name; do
            [ "$name" = LIBSTD ] && name=$(apt-cache depends libstd-rust-dev | sed -n 's/.*Depends: \(libstd-rust-[0-9.]*\)$/\1/p')
            case $name in
            +*) alone="$alone ${name#+}" ;;
            *) wanted="$wanted $name" ;;
            esac
        done
        needed=$(apt-get install -s --no-install-recommends $wanted | sed -n 's/^Inst \([^ ]*\) .*/\1/p')
        cd "$directory/debs"
        apt-get -qq download $needed $alone
    )
    for deb in "$directory"/debs/*.deb; do
        dpkg-deb -x "$deb" "$directory"
    done
    rm -rf "$directory/debs" "$directory/apt"
    : >"$directory/done"
}

# in_root DIRECTORY PROGRAM ARGUMENT...: runs an unpacked program with the
# libraries that were unpacked with it.
in_root() {
    root=$here/$1
    program=$root/usr/bin/$2
    shift 2
    loader=$(find "$root" -name ld-linux-aarch64.so.1 | head -1)
    "$loader" --library-path "$root/lib/aarch64-linux-gnu:$root/usr/lib/aarch64-linux-gnu:$root/usr/lib" \
        "$program" "$@"
}

compile() {
    in_root rustc rustc --sysroot "$here/rustc/usr" --target x86_64-unknown-linux-gnu --edition 2024 \
        -C opt-level=3 -C panic=abort -C codegen-units=1 "$@"
}

emulate() {
    in_root emulator qemu-x86_64 "$@"
}

fetch rustc "$rust_release" LIBSTD +rustc:arm64 +libstd-rust-dev:amd64
fetch emulator "$emulator_release" qemu-user

# What a linker is to find under the usual names, and a linker that brings the
# files which begin and end a program.
links=$here/links
mkdir -p "$links"
ln -sf "$kit/lib/libgcc_s.so.1" "$links/libgcc_s.so"
ln -sf "$kit/lib/libm.so.6" "$links/libm.so"
echo "GROUP ( $kit/lib/libc.so.6 $kit/lib/libc_nonshared.a $kit/lib/ld-linux-x86-64.so.2 )" >"$links/libc.so"
for name in util rt pthread dl; do
    [ -e "$links/lib$name.a" ] || "$kit/bin/llvm-ar" rc "$links/lib$name.a"
done
cat >"$links/link" <<END
#!/bin/sh
exec "$kit/bin/ld.lld" -dynamic-linker /lib64/ld-linux-x86-64.so.2 \\
    "$kit/lib/Scrt1.o" "$kit/lib/crti.o" "$kit/lib/crtbeginS.o" "\$@" "$kit/lib/crtendS.o" "$kit/lib/crtn.o"
END
chmod +x "$links/link"

out=$here/$subject
mkdir -p "$out"
cc -O2 -Wall -shared -fPIC -o "$out/count.so" $package/emulated/count.c
if [ $subject = stub ]; then
    compile --crate-name folvkin_stub --crate-type rlib --out-dir "$out" $package/src/lib.rs
    compile -C lto=fat --crate-name folvkin --crate-type staticlib -o "$out/libfolvkin.a" \
        --extern "folvkin_stub=$out/libfolvkin_stub.rlib" $package/emulated/stub.rs
    library=$out
    # Both have Rust's standard library.
    also="-C link-arg=--allow-multiple-definition"
else
    library=$(pwd)/target/staticlib
    also=
fi
compile --cfg linked --crate-name folvkin_compare --crate-type rlib --out-dir "$out" $package/src/lib.rs
compile -C lto=fat --cfg linked --crate-name bench -o "$out/bench" \
    --extern "folvkin_compare=$out/libfolvkin_compare.rlib" -L "native=$library" -l static:-bundle=folvkin \
    -C linker-flavor=ld -C linker="$links/link" -L "native=$links" $also $package/src/bin/bench.rs

set -- "$kit/lib/ld-linux-x86-64.so.2" --library-path "$kit/lib" "$out/bench"
emulate -plugin "$out/count.so,count=$out/count" "$@" --instructions "$out/count"
if [ "$rounds" -gt 0 ]; then
    echo
    emulate "$@" --rounds "$rounds"
fi
