# Sourced by whatever builds or runs a program in C. The archive that build.sh writes is for x86-64 on every machine, so these programs are too.
#   CC       compiles and links a program for x86-64
#   RUNNER   the words to put before such a program to run it; empty where it runs by itself
# A caller's own CC and RUNNER are taken. On a machine other than x86-64 both come from Debian's packages. Those that are missing are
# installed where the user may do that; else a line names them, and the command stops.

install_or_stop() { # PACKAGES
    [ $# -eq 0 ] && return
    if [ "$(id -u)" = 0 ] && command -v apt-get >/dev/null; then
        { apt-get -qq update && DEBIAN_FRONTEND=noninteractive apt-get -qq install --no-install-recommends "$@"; } >&2 && return
    fi
    echo "To build and run programs for x86-64 on this machine, install these packages first: $*" >&2
    exit 1
}

if [ "$(uname -m)" = x86_64 ]; then
    CC=${CC:-cc}
    RUNNER=${RUNNER-}
else
    cross=/usr/x86_64-linux-gnu
    missing=()
    if [ -z "${CC:-}" ]; then
        CC=x86_64-linux-gnu-gcc
        command -v "$CC" >/dev/null || missing+=(gcc-x86-64-linux-gnu)
        [ -e "$cross/include/stdio.h" ] || missing+=(libc6-dev-amd64-cross)
    fi
    if [ -z "${RUNNER+given}" ]; then
        # The loader and the C library are to come from one package, also where the machine has others for x86-64.
        RUNNER="qemu-x86_64 -L $cross -E LD_LIBRARY_PATH=$cross/lib"
        command -v qemu-x86_64 >/dev/null || missing+=(qemu-user)
        [ -e "$cross/lib64/ld-linux-x86-64.so.2" ] || missing+=(libc6-amd64-cross)
    fi
    install_or_stop "${missing[@]}"
fi
export CC RUNNER
