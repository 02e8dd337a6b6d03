# shellcheck shell=sh
# Sourced at the top of the repository: the library for this machine, and for the other of the two that it is made for.
#
# machine, library              this machine and its archive
# other, other_library          the other one and its archive
# other_cc, other_run           what compiles programs for the other one here, and what runs them
# shellcheck disable=SC2034
machine=$(uname -m)
case $machine in
x86_64) other=aarch64 ;;
aarch64) other=x86_64 ;;
*)
    echo "there is no library for this machine ($machine): it is made for x86_64 and aarch64" >&2
    exit 2
    ;;
esac
library=target/staticlib/$machine/libtishkolan.a
other_library=target/staticlib/$other/libtishkolan.a
other_cc=$other-linux-gnu-gcc
other_run="qemu-$other -L /usr/$other-linux-gnu"

# Sets `proved_run` to what runs a program that rt has built: these are x86-64 code, for the system's C library.
find_proved_run() {
    proved_run=''
    [ "$machine" = x86_64 ] || proved_run=$other_run
}

# Ends the program NAME where another one is at work in this folder.
alone() { # NAME
    [ -z "${TISHKOLAN_ALONE-}" ] || return 0 # it was started by one that is
    exec 9< .
    if ! flock -n 9; then
        echo "$1: another ./run, ./library or .ci/run is at work in this folder; this one did nothing" >&2
        exit 2
    fi
    export TISHKOLAN_ALONE=1
}

# Ends the program NAME where this folder cannot be written, or there is less room on its disk, or where temporary files go, than so many megabytes.
room_for() { # NAME MEGABYTES
    if ! [ -w . ]; then
        echo "$1: this folder cannot be written: $PWD" >&2
        exit 2
    fi
    free=$(df -Pm . "${TMPDIR:-/tmp}" | awk 'NR == 2 || NR > 2 && $4 < least { least = $4 } END { print least }')
    if [ "$free" -lt "$2" ]; then
        echo "$1: there are $free MB free on the disk of this folder or of ${TMPDIR:-/tmp}, and it takes up to $2 MB" >&2
        exit 2
    fi
}
