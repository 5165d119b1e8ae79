# The static library, called from C and from Rust. A part of ci/test, which has $gate, $top, $room, ok and bad.

# build_library: $room/lib with the two archives that a program links.
build_library() {
    kit=$(dirname "$(rt doc)")
    mkdir -p "$room/lib"
    python3 ci/archive "$gate" mc_c >"$room/library.log" 2>&1 || return 1
    cp "$gate/crates/mc_c/out/libmc_c.a" "$kit/c/liblibc_c.a" "$room/lib/"
}

# compile_c NAME OPTIONS..: a program of C over the library, as $room/NAME
compile_c() {
    name=$1
    shift
    cc -std=c99 -O2 -g -Wall -Wextra -Werror -pedantic -Iinclude "$@" "$room/lib/libmc_c.a" "$room/lib/liblibc_c.a" -lpthread -o "$room/$name"
}

# lacks TOOL NAME: whether the tool isn't there, so that the check of that name is left out
lacks() {
    if command -v "$1" >/dev/null; then
        return 1
    fi
    echo "left out: library: $2: $1 isn't installed"
}

# compile_header COMPILER FILE STANDARD
compile_header() {
    echo '#include "noddrefil.h"' >"$room/$2"
    "$1" -std="$3" -Wall -Wextra -Werror -pedantic -Iinclude -fsyntax-only "$room/$2"
}

# The header by itself, as C and as C++.
check_header() {
    if compile_header cc header.c c99; then
        ok "library: the header as C"
    else
        bad "library: the header as C" "the compiler's lines say what it refused"
    fi
    lacks c++ "the header as C++" && return
    if compile_header c++ header.cc c++11; then
        ok "library: the header as C++"
    else
        bad "library: the header as C++" "the compiler's lines say what it refused"
    fi
}

# check_run NAME COMMAND..: a program that ends with status 0, and what it prints
check_run() {
    check=$1
    shift
    if "$@" >"$room/out" 2>"$room/err"; then
        ok "library: $check"
    else
        bad "library: $check" "it printed $(tail -n 3 "$room/out" "$room/err")"
    fi
}

# The programs of C: with threads, and with each request for memory refused in turn.
check_programs() {
    wrapped=-Wl,--wrap=malloc,--wrap=realloc,--wrap=free
    if compile_c first examples/first.c && compile_c calls ci/c/threads.c &&
        compile_c calls-asan -fsanitize=address ci/c/threads.c && compile_c refusals "$wrapped" ci/c/refusals.c; then
        check_run "the first program" "$room/first"
        check_run "four threads" "$room/calls" 4 250000
        check_run "four threads, AddressSanitizer" "$room/calls-asan" 4 250000
        lacks valgrind "four threads, memcheck" || check_run "four threads, memcheck" valgrind -q --fair-sched=yes --leak-check=full --error-exitcode=9 "$room/calls" 4 250000
        check_run "refused memory" "$room/refusals"
    else
        bad "library: the programs of C" "the compiler's lines say why"
    fi
}

# The bindings: their tests, and their first program.
check_bindings() {
    lacks cargo "the bindings" && return
    for words in test "run --example first"; do
        # the words of a command
        # shellcheck disable=SC2086
        check_run "cargo $words" env NODDREFIL_LIB_DIR="$room/lib" CARGO_TARGET_DIR="$room/bindings" cargo $words --offline --quiet --manifest-path bindings/rust/Cargo.toml
    done
}

# first_installed FOLDER: the first program, built as pkg-config says over what was installed there, and run
first_installed() {
    flags=$(PKG_CONFIG_PATH=$1/lib/pkgconfig pkg-config --cflags --libs noddrefil) || return 1
    # the words of a command
    # shellcheck disable=SC2086
    cc examples/first.c $flags -o "$room/first-installed" && "$room/first-installed"
}

# The server over the bindings: its tests, and clients that talk to it. Debian's python3 has the packages of these.
check_server() {
    lacks cargo "the server" && return
    set -- env NODDREFIL_LIB_DIR="$room/lib" CARGO_TARGET_DIR="$room/server" cargo
    check_run "the server's tests" "$@" test --release --offline --quiet --manifest-path examples/server/Cargo.toml
    check_run "the server" "$@" build --release --offline --quiet --manifest-path examples/server/Cargo.toml
    python=/usr/bin/python3
    [ -x "$python" ] || python=python3
    if "$python" ci/server/check "$room/server/release/noddrefil-server"; then
        ok "library: clients of the server"
    else
        bad "library: clients of the server" "their own lines say what"
    fi
}

check_install() {
    { lacks make "make install" || lacks pkg-config "make install"; } && return
    check_run "make install" make install LIB="$room/lib" PREFIX="$room/installed"
    check_run "the first program, as installed" first_installed "$room/installed"
}

check_library() {
    if ! build_library; then
        bad "library" "$(tail -n 3 "$room/library.log")"
        return
    fi
    check_header
    check_programs
    check_bindings
    check_server
    check_install
}
