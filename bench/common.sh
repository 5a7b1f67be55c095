# What the scripts of this folder share; each reads it in first. It goes to the top folder, finds the compiler, and builds the static library and
# the reference. It takes the command rt of the Rattle kit and gcc. Without cargo the reference is left out. All that is made goes to $out.
#
#   compile NAME SOURCE..    builds $out/NAME, with the library and the reference
#   run PROGRAM WORD..       runs it
#
# run-all sets BENCH_BUILT when it has read this file, so that the others neither build the library again nor say again what is missing.
set -u

die() {
    printf '%s: %s\n' "${0##*/}" "$*" >&2
    exit 1
}

note() { [ "${BENCH_BUILT-}" ] || printf '%s: %s\n' "${0##*/}" "$*" >&2; }

top=$(cd "$(dirname "$0")/.." && pwd -P) || die "cannot find its own folder"
cd "$top" || exit 1
out=target/bench
command -v rt >/dev/null || die "it needs the command rt of the Rattle kit"

# The static library is for x86-64. On another machine the driver is too, and runs under the kit's emulator: the times there say nothing.
target=x86_64-unknown-linux-gnu
emulator='' static=''
if [ "$(uname -m)" = x86_64 ]; then
    cc=gcc package=gcc
else
    cc=x86_64-linux-gnu-gcc package=gcc-x86-64-linux-gnu static=-static
    guide=$(rt doc) || die "rt does not say where the kit is"
    emulator=${guide%/docs/*}/on/$(uname -m)/toolchain/bin/qemu-x86_64
    [ -x "$emulator" ] || die "the kit has no emulator for $(uname -m)"
    note "under an emulator: the times say nothing"
fi
command -v "$cc" >/dev/null || die "no $cc: install the Debian package $package"

mkdir -p "$out/files" "$out/programs" || exit 1
if [ -z "${BENCH_BUILT-}" ] && ! (cd crates/host && rt lib) >"$out/staticlib.log" 2>&1; then
    tail -n 20 "$out/staticlib.log" >&2
    die "host was not built; $out/staticlib.log has all that was said"
fi

# The reference, where cargo has what it needs for x86-64.
reference='' defined=''
if ! command -v cargo >/dev/null; then
    note "no cargo, so the reference is left out: install the Debian package cargo"
elif cargo build --release --offline --quiet --target "$target" --manifest-path bench/reference/Cargo.toml --target-dir "$out/reference" 2>"$out/cargo.log"; then
    reference=$out/reference/$target/release/libbench_reference.a
    defined=-DREFERENCE
else
    note "cargo does not build for $target, so the reference is left out; $out/cargo.log says why"
fi

# The speed of short loops hangs on the place of the code (docs/BENCHMARKS.md). So the library stands first, whole, and main not ahead of it; and the
# functions and loops of C begin at multiples of 64, which is their best place. Then no place hangs on a driver's length.
compile() {
    made=$1
    shift
    "$cc" -O2 -Wall -fno-reorder-functions -falign-functions=64 -falign-loops=64 $defined -o "$out/$made" $static \
        -Wl,--whole-archive crates/host/out/libhost.a -Wl,--no-whole-archive "$@" $reference -lm || exit 1
}

run() { ${emulator:+"$emulator"} "$@"; }
