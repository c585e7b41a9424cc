# Sourced by the scripts that build C: the compiler and the runner for x86-64, which the library is for, and the library itself.
# CC compiles, NM lists names, RUN runs a program (on Arm a cross compiler and an emulator, which `need` installs), LIBRARY is linked.
top=$(cd "$(dirname "${BASH_SOURCE[0]}")/../.." && pwd)

# need COMMAND PACKAGE...: Debian's packages, where the command is missing
need() {
    local command=$1 as=
    shift
    command -v "$command" >/dev/null && return 0
    echo "installing $* for $command" >&2
    [ "$(id -u)" -eq 0 ] || as="sudo -n"
    local install="$as env DEBIAN_FRONTEND=noninteractive apt-get install -y -q --no-install-recommends $*"
    $install >/dev/null 2>&1 || { $as apt-get update -q >/dev/null 2>&1 && $install >/dev/null 2>&1; }
    command -v "$command" >/dev/null || { echo "$command is missing, and Debian's $* could not be installed" >&2; return 1; }
}

# the C tools of this machine
if [ "$(uname -m)" = x86_64 ]; then
    need gcc gcc libc6-dev || exit 2
    CC=gcc NM=nm RUN=
else
    need x86_64-linux-gnu-gcc gcc-x86-64-linux-gnu libc6-dev-amd64-cross || exit 2
    need qemu-x86_64 qemu-user || exit 2
    CC="x86_64-linux-gnu-gcc -static" NM=x86_64-linux-gnu-nm RUN=qemu-x86_64
fi

# build_library: proves the face for C and what it stands on, where that is not done, and writes the static library
LIBRARY=$top/crates/dv100/out/libdv100.a
build_library() {
    [ -f "$LIBRARY" ] && [ -z "$(find "$top/crates" -name out -prune -o \( -name '*.rt' -o -name '*.antt' \) -newer "$LIBRARY" -print -quit)" ] && return 0
    local said
    said=$(cd "$top/crates/dv100" && rt lib --backend rattle 2>&1 </dev/null) || { printf '%s\n' "$said" >&2; return 1; }
}
