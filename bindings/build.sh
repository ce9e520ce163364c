#!/bin/sh
# Builds the static library, and tests it from C and from Cargo.
#
#   bindings/build.sh            library, C checks and examples (under valgrind too, where there is one), cargo test, the server, the bench; with rt
#                                also the example in Rattle
#   bindings/build.sh --short    the same without `cargo test` of the crate, which is a command by itself, with shorter loads under
#                                valgrind, and without a look through the code of the packages that need Debian's crates
#   bindings/build.sh --library  the library alone
#   bindings/build.sh --c        library and C checks alone
#   bindings/build.sh --speed    also the comparison with other caches, where Debian's crate `lru` (librust-lru-dev) is installed
#   bindings/build.sh --trial    also a service before a slow database, with leases and without, where that crate is installed
#   bindings/build.sh --stress   also ten minutes of all calls at once over pages that are harmed, and some of it under valgrind
#   bindings/build.sh --replicas also two processes before PostgreSQL, by each way to tell them of each other's changes; as root,
#                                where there is ip, also with packets dropped between the database and one of them
#   bindings/build.sh --memory   also what a cache with flash keeps in memory, beside what its pool says, and what one of a million
#                                items does
#   bindings/build.sh --server   also the server's long runs: many lines beside memcached and damaged ones, crowds, flushes, little memory,
#                                and what it costs
#   bindings/build.sh --bench    also the bench's long runs: files of millions of lines, many requests, the tables and pictures of
#                                docs/BENCH.md
#
# What it makes lies in bindings/out, as in a prefix: lib, lib/pkgconfig and include; and the Cargo package (bindings/package). PREFIX is what the file for pkg-config
# names, where the three are to be copied elsewhere. What a machine lacks is skipped, and said so. Without rt the library is the one
# of dist/.
set -eu
here=$(cd "$(dirname "$0")" && pwd)
crates=$here/../crates
crate=$crates/hc_c
out=$here/out
what=${1-}
has() { command -v "$1" >/dev/null 2>&1; }
# Runs a command on an empty folder, which goes afterwards.
on_folder() {
    rm -rf "$out/files"
    mkdir "$out/files"
    "$@" "$out/files"
    rm -r "$out/files"
}

# Runs valgrind with these words, behind what it shows.
under_valgrind() {
    shows=$1
    shift
    if has valgrind; then
        valgrind -q --error-exitcode=1 "$@"
        echo "valgrind: $shows"
    else
        echo "skipped: no valgrind"
    fi
}
all_leaks="--leak-check=full --show-leak-kinds=all --errors-for-leak-kinds=all"

# Whether `rt ci` left the libraries below, and no source has changed since: they have no stamp, and hc_types is the first of them.
has_ci_left() {
    lowest=$crates/hc_types/out/rlib
    [ -d "$lowest/hc_types.rlib" ] && [ ! -e "$lowest/stamp" ] && [ -d "$crates/hc_leased/out/rlib/hc_leased.rlib" ] &&
        [ -z "$(find "$crates"/*/src "$crates"/*/specs "$crates"/*/proofs -newer "$lowest/hc_types.rlib" 2>/dev/null | head -n 1)" ]
}
# Proves and builds the static library over these, as `rt lib` does over its own: that would prove each of them once more.
build_over_ci() {
    set -- --extern "std=$kit/rlibs/std.rlib" -L "dependency=$kit/rlibs"
    for name in $(sed -n 's/^hc_c staticlib: *//p' "$crates/../crates.txt"); do
        if [ -d "$crates/$name" ]; then rlibs=$crates/$name/out/rlib; else rlibs=$kit/rlibs; fi
        set -- "$@" --extern "$name=$rlibs/$name.rlib"
    done
    for rlibs in "$crates"/*/out/rlib; do set -- "$@" -L "dependency=$rlibs"; done
    "$kit/bin/rattle" build --crate-name hc_c src/lib.rt --crate-type staticlib --links hc_c= "$@" --jobs 2 --backend llvm \
        --antt-project "$kit/rattle/logic/antt-project.json" --logic-built "$kit/logic_built" --toolchain "$kit/toolchain" \
        --incremental "$out/incremental" -o out/libhc_c.a
}
# The static library anew, over what the checker kept.
library() {
    rm -f "$crate/out/libhc_c.a"
    if has_ci_left; then how=build_over_ci; else how="rt lib"; fi
    (cd "$crate" && mkdir -p out && $how >"$out/rt.log" 2>&1) || { tail -20 "$out/rt.log"; exit 1; }
}

mkdir -p "$out"
if has rt && has ar; then
    kit=$(dirname "$(dirname "$(readlink -f "$(command -v rt)")")")
elif taken=$("$here/../tools/dist" --take hc_c); then
    cp -p "$(echo "$taken" | head -n 1)" "$out/taken.a" # (as old as it is there: it isn't built now)
else
    echo "build.sh: the library needs rt and ar, and $taken" >&2
    exit 1
fi
rm -rf "$out/objects" "$out/include" "$out/lib"
mkdir -p "$out/objects" "$out/include" "$out/lib/pkgconfig"

echo "== the library"
if [ -n "${kit-}" ]; then
    library
    cp "$crate/out/libhc_c.a" "$out/first.a"
    library
    cmp "$out/first.a" "$crate/out/libhc_c.a"
    echo "built twice: the same bytes"
    rm "$out/first.a"
    # the calls of the C library's heap, which come with the toolchain, go into the same archive
    (cd "$out/objects" && ar x "$crate/out/libhc_c.a" && ar x "$kit/c/liblibc_c.a" && ar rcsD "$out/lib/libkilambosetry.a" ./*)
else
    echo "$taken"
    mv "$out/taken.a" "$out/lib/libkilambosetry.a"
fi
cp "$here"/c/*.h "$out/include/"
sed "s|@prefix@|${PREFIX:-$out}|" "$here/c/kilambosetry.pc.in" >"$out/lib/pkgconfig/kilambosetry.pc"
[ "$what" != --library ] || exit 0

# Has each compiler that is here read the C, with all warnings as errors: each source, and each header alone, by C++ too.
warnings="-Wall -Wextra -Wpedantic -Wconversion -Wshadow -Werror -pthread -I$here/c -c -o /dev/null"
read_sources() {
    if ! has "$1"; then
        echo "skipped: no $1"
        return
    fi
    # (unquoted: words)
    "$1" -std=c99 -O1 $warnings "$here/c/checks.c"
    for source in "$here/c/service_checks.c" "$here"/examples/c/*.c; do
        case $source in */database.c) [ -e /usr/include/sqlite3.h ] || continue ;; esac
        "$1" -std=c11 -O1 $warnings "$source"
    done
    read_headers "$1" c c99
    read_headers "$1" c c11
    echo "the C, by $1: no warning"
}
read_headers() {
    if ! has "$1"; then
        echo "skipped: no $1"
        return
    fi
    for header in "$here"/c/*.h; do
        echo "#include \"$header\"" | "$1" -x "$2" "-std=$3" $warnings -
    done
}

echo "== C"
read_sources gcc
read_sources clang
read_headers g++ c++ c++11
read_headers clang++ c++ c++11
if has cc; then
    flags="-I$out/include $out/lib/libkilambosetry.a"
    if has pkg-config && [ -z "${PREFIX-}" ]; then
        flags=$(PKG_CONFIG_PATH="$out/lib/pkgconfig" pkg-config --cflags --libs kilambosetry)
    fi
    # (unquoted: words)
    cc -std=c99 -Wall -Wextra -Wpedantic -Werror -O1 -g -o "$out/checks" "$here/c/checks.c" $flags
    "$out/checks"
    under_valgrind "no error, nothing lost" $all_leaks "$out/checks"
    cc -std=c99 -Wall -Wextra -Wpedantic -Werror -O1 -o "$out/memory" "$here/examples/c/memory.c" $flags
    "$out/memory" >"$out/memory.txt" || { cat "$out/memory.txt"; exit 1; }
else
    echo "skipped: no cc"
fi

# Whether cc makes and links a program that begins with this line, with further words.
makes() {
    printf '%s\n' "$1" 'int main(void) { return 0; }' >"$out/tried.c"
    shift
    cc -o "$out/tried" "$out/tried.c" "$@" >"$out/tried.log" 2>&1
}
# The service's library, static and shared. Both have the calls of the library below too.
service_library() {
    (cd "$here/service" && CARGO_TARGET_DIR="$out/target" cargo build --offline --quiet --release)
    cp "$out/target/release/libkilambosetry_service.a" "$out/lib/"
    # (unquoted: words)
    cc -shared -o "$out/lib/libkilambosetry_service.so" -Wl,-soname,libkilambosetry_service.so -Wl,-z,defs \
        -Wl,--version-script="$here/service/exports.map" \
        -Wl,--whole-archive "$out/lib/libkilambosetry_service.a" -Wl,--no-whole-archive $system
    sed "s|@prefix@|${PREFIX:-$out}|" "$here/c/kilambosetry_service.pc.in" >"$out/lib/pkgconfig/kilambosetry_service.pc"
}
# What Rust's own library needs of the system.
system=$(sed -n 's/^Libs.private: //p' "$here/c/kilambosetry_service.pc.in")
# Makes a program over the service: its name, and further words.
service() {
    made=$1
    shift
    cc -std=c11 -Wall -Wextra -Wpedantic -Wconversion -Wshadow -Werror -O1 -g -pthread -I"$out/include" -o "$out/$made" "$@"
}
static="$out/lib/libkilambosetry_service.a $system"
shared="-L$out/lib -lkilambosetry_service -Wl,-rpath,$out/lib"
refusing=-Wl,--wrap=malloc,--wrap=calloc,--wrap=realloc,--wrap=posix_memalign,--wrap=pread64,--wrap=pwrite64,--wrap=preadv2

export KILAMBOSETRY_LIB="$out/lib" # (and not the one of dist/)

echo "== the service in C"
if ! has cc; then
    echo "skipped: no cc"
elif ! has cargo; then
    echo "skipped: no cargo, which builds the service's library"
else
    service_library
    (cd "$here/service" && CARGO_TARGET_DIR="$out/target" cargo test --offline --quiet --release)
    echo "the service's types and calls: those of its header"
    service service-checks "$here/c/service_checks.c" $refusing $static
    "$out/service-checks" "$out"
    if [ "$what" = --short ]; then loads=32; else loads=1; fi
    under_valgrind "no error, nothing lost" --fair-sched=yes $all_leaks "$out/service-checks" "$out" "$loads" alone
    if makes "" -fsanitize=address,undefined && "$out/tried"; then
        service service-sanitized "$here/c/service_checks.c" -fsanitize=address,undefined -fno-sanitize-recover=all $refusing $static
        "$out/service-sanitized" "$out" 16
        echo "address and undefined behaviour sanitizer: no error, nothing lost"
    else
        echo "skipped: no address sanitizer"
    fi
    if makes "#include <sqlite3.h>" -lsqlite3; then
        profiles="$here/examples/c/profiles.c $here/examples/c/database.c -lsqlite3"
        service profiles $profiles $static
        on_folder "$out/profiles"
        on_folder under_valgrind "no error, nothing lost" $all_leaks "$out/profiles"
        service profiles-shared $profiles $shared
        on_folder "$out/profiles-shared"
        echo "the example over the shared library: the same"
    else
        echo "skipped: no SQLite for the example (Debian's libsqlite3-dev)"
    fi
fi
rm -f "$out"/tried*
[ "$what" != --c ] || exit 0

# Looks through a package's code and pages: its folder, and further words for cargo.
read_package() (
    package=$1
    shift
    export CARGO_TARGET_DIR="$out/target" RUSTDOCFLAGS="-D warnings"
    cd "$here/$package"
    cargo doc --offline --quiet --no-deps "$@"
    if has cargo-fmt && has cargo-clippy; then
        cargo fmt --check
        cargo clippy --offline --quiet --all-targets "$@" -- -D warnings
        echo "the code and the pages of $package: no warning"
    else
        echo "the pages of $package: no warning; skipped: its code, since there is no cargo fmt, or no cargo clippy"
    fi
)
has_lru() { ls -d /usr/share/cargo/registry/lru-0.7* >/dev/null 2>&1; }

echo "== Cargo"
if has cargo; then
    if [ "$what" != --short ]; then
        (cd "$here/rust" && CARGO_TARGET_DIR="$out/target" cargo test --offline --quiet)
    fi
    for package in rust service pictures examples/rust; do read_package "$package"; done
    if [ "$what" != --short ]; then
        for package in server bench tracing; do
            if missing=$("$here/$package/tests/has-crates"); then read_package "$package"; else echo "skipped: the code of $package, for want of crate $missing"; fi
        done
        for package in speed trial; do
            if has_lru; then read_package "$package" --all-features; else echo "skipped: the code of $package, for want of crate lru"; fi
        done
    fi
    # the code of README.md: it is the example's, word for word, and does what it says
    sed -n '/^```rust$/,/^```$/{/^```/!p;}' "$here/../README.md" >"$out/readme.txt"
    sed -n '/^fn open/,/^fn main/p' "$here/rust/examples/readme.rs" | sed '/^fn main/d' | sed '$d' | cmp - "$out/readme.txt"
    example() {
        named=$1
        shift
        (cd "$here/rust" && CARGO_TARGET_DIR="$out/target" cargo run --offline --quiet --release --example "$named" -- "$@")
    }
    example readme
    echo "the README's code: does what it says"
    example service
    echo "the service: no row was older than it may be"
    for name in readme service; do
        under_valgrind "no error, nothing lost by the example $name" --fair-sched=yes --leak-check=full --show-leak-kinds=definite \
            --errors-for-leak-kinds=definite "$out/target/release/examples/$name"
    done
    "$here/package"
    if makes "" -lsqlite3; then
        (cd "$here/examples/rust" && CARGO_TARGET_DIR="$out/target" cargo build --offline --quiet --release)
        on_folder "$out/target/release/profiles"
    else
        echo "skipped: no SQLite for the example (Debian's libsqlite3-dev)"
    fi
    rm -f "$out"/tried*
    if [ "$what" = --speed ]; then
        if has_lru; then
            speed() { (cd "$here/speed" && CARGO_TARGET_DIR="$out/target" cargo run --offline --quiet --release -- "$@"); }
            speed
            speed least 1000
            speed threads
            speed many "$out"
        else
            echo "skipped: no crate lru (Debian's librust-lru-dev)"
        fi
    fi
    if [ "$what" = --trial ]; then
        if has_lru; then
            trial() { (cd "$here/trial" && CARGO_TARGET_DIR="$out/target" cargo run --offline --quiet --release -- "$@"); }
            for cache in leases sets plain lru; do trial slow $cache 10 20; done
            trial slow leases 10 20 8 harm
        else
            echo "skipped: no crate lru (Debian's librust-lru-dev)"
        fi
    fi
    if [ "$what" != --short ]; then
        seconds=10
        [ "$what" != --stress ] || seconds=600
        example stress $seconds
        echo "the stress: nothing was stale, another's or torn"
    fi
    if [ "$what" = --stress ]; then
        under_valgrind "no error, nothing lost by the example stress" --fair-sched=yes --leak-check=full --show-leak-kinds=definite \
            --errors-for-leak-kinds=definite "$out/target/release/examples/stress" 60
    fi
    if [ "$what" = --replicas ]; then
        if ! ls -d /usr/lib/postgresql/*/bin/initdb >/dev/null 2>&1 || ! makes "" -lpq; then
            echo "skipped: no PostgreSQL, or not its C library (Debian's postgresql and libpq-dev)"
        elif missing=$("$here/server/tests/has-crates"); then
            CARGO_TARGET_DIR="$out/target" "$here/examples/replicas/run"
        else
            echo "skipped: no crate $missing"
        fi
        rm -f "$out"/tried*
    fi
    if [ "$what" = --memory ]; then
        (cd "$here/rust" && CARGO_TARGET_DIR="$out/target" cargo run --offline --quiet --release --example resident)
        example size items=1000000 memory=640000000 threads=1 own=1
    fi
else
    echo "skipped: no cargo"
fi

echo "== the server"
if ! has cargo; then
    echo "skipped: no cargo"
elif missing=$("$here/server/tests/has-crates"); then
    CARGO_TARGET_DIR="$out/target" "$here/server/tests/run" "$@"
else
    echo "skipped: no crate $missing"
fi

echo "== spans"
if ! has cargo; then
    echo "skipped: no cargo"
elif missing=$("$here/tracing/tests/has-crates"); then
    (cd "$here/tracing" && CARGO_TARGET_DIR="$out/target" cargo test --offline --quiet)
else
    echo "skipped: no crate $missing"
fi

echo "== the bench"
if ! has cargo; then
    echo "skipped: no cargo"
elif missing=$("$here/bench/tests/has-crates"); then
    CARGO_TARGET_DIR="$out/target" "$here/bench/tests/run" "$@"
else
    echo "skipped: no crate $missing"
fi

echo "== the example in Rattle"
if [ -n "${kit-}" ]; then
    program=$here/../crates/example_service
    (cd "$program" && rt run </dev/null >"$out/rt.log" 2>&1) || { tail -20 "$out/rt.log"; exit 1; }
    # (run again by itself, since rt has lines of its own)
    (cd "$out" && "$program/out/example_service" >"$out/example.txt")
    cmp "$out/example.txt" "$program/stdout"
    echo "it prints what it must"
else
    echo "skipped: no rt"
fi
