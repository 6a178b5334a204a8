# Sourced by the scripts of this folder: how x86-64 programs are compiled and run on this machine. The library is
# x86-64; on Arm its programs are built by Debian's cross compiler and run by its emulator.

# A command, and the Debian package that has it.
need() {
    command -v "$1" >/dev/null && return
    apt-get update -q >&2 && apt-get install -y -q "$2" >&2
}

case $(uname -m) in
x86_64)
    need gcc gcc
    CC=gcc RUN=
    ;;
*)
    need x86_64-linux-gnu-gcc gcc-x86-64-linux-gnu
    need qemu-x86_64 qemu-user
    CC=x86_64-linux-gnu-gcc RUN='qemu-x86_64 -L /usr/x86_64-linux-gnu'
    ;;
esac

strict='-Wall -Wextra -Werror'
library=target/staticlib/libtautrobin.a
built=target/outside
mkdir -p "$built"
