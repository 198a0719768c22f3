# shellcheck shell=bash
# Sourced by the scripts: what the Rattle kit of this machine builds of the repository, and C programs built and run with the kit.
command -v rt >/dev/null || {
    echo "there is no rt: the Rattle kit is wanted" >&2
    exit 2
}
kit_top=$(cd "$(dirname "${BASH_SOURCE[0]}")/.." && pwd)
kit=$(dirname "$(dirname "$(readlink -f "$(command -v rt)")")")
kit_tools=$kit/toolchain
kit_loader=("$kit_tools/lib/ld-linux-x86-64.so.2" --library-path "$kit_tools/lib")

# What is built: the library for C and the program `listing`.
kit_archive=$kit_top/crates/tracer/out/libtracer.a
kit_listing=$kit_top/crates/listing/out/listing

# kit_is_built FILE: it is there, and neither a source nor the kit is newer.
kit_is_built() {
    [ -f "$1" ] && [ -z "$(find "$kit/KIT-ID" "$kit_top/crates.txt" "$kit_top/crates" -name out -prune -o -newer "$1" -print -quit)" ]
}

# kit_make FILE: proves and builds it, unless it is built.
kit_make() {
    kit_is_built "$1" && return
    case $1 in
    "$kit_archive") (cd "$kit_top/crates/tracer" && rt lib) ;;
    "$kit_listing") (cd "$kit_top/crates/listing" && rt run </dev/null) ;;
    esac
}

# kit_clang WORDS..: the kit's compiler, with tools/headers, since it has none of its own.
kit_clang() {
    "$kit_tools/bin/clang" --target=x86_64-linux-gnu -ffreestanding -nostdinc -isystem "$kit_top/tools/headers" -fPIE -O2 "$@"
}

# kit_link PROGRAM OBJECTS..: links with the kit's C library.
kit_link() {
    "$kit/bin/rattle-link" --target x86_64-unknown-linux-gnu --toolchain "$kit_tools" -o "$@"
}

# kit_run PROGRAM WORDS..: runs with the kit's C library.
kit_run() {
    "${kit_loader[@]}" "$@"
}

# kit_is_file FILE: there is such a file, or a pipe, that can be read.
kit_is_file() {
    [ -r "$1" ] && [ ! -d "$1" ]
}
