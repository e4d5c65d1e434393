# For the commands here and tools/install: finds the library and the toolchain, and builds.
# Needs: here, the folder of this file; name, the command that was called.

library=$here/../target/staticlib/libhead.a

fail() {
    echo "$name: $1" >&2
    exit 1
}

need() {
    command -v "$1" >/dev/null 2>&1 || fail "no $1 on the path: $2"
}

# Takes the library's path from the front of the arguments, up to "--". Sets taken to how many there
# were.
take_options() {
    taken=0
    for word in "$@"; do
        taken=$((taken + 1))
        case $word in
        --) return ;;
        -*) fail "no option '$word' here; $usage" ;;
        *) library=$word ;;
        esac
    done
}

# For cargo and the build of the binding.
find_library() {
    need cargo "a Rust toolchain is needed"
    [ -f "$library" ] || fail "no library at $library: build it first, or give its path"
    HEAD_LIB=$(cd "$(dirname "$library")" && pwd)/$(basename "$library")
    HEAD_LIB_SUM=$(cksum <"$library")
    CARGO_TARGET_DIR=${CARGO_TARGET_DIR:-$here/../target/rust}
    export HEAD_LIB HEAD_LIB_SUM CARGO_TARGET_DIR
}

build() {
    find_library
    in_workspace build || fail "the build failed"
}

in_workspace() {
    (cd "$here" && cargo "$1" --quiet --release --offline --locked -j1 --workspace)
}
