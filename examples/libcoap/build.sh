#!/bin/sh
# Fetches Debian's source of libcoap with apt-get, checks it, and builds from it orders.wasm, with its places. Where the guests' kit is
# missing it is installed first, as root. The module is in the repository, so this is for a change of the guest.
# Usage: build.sh
here=$(CDPATH='' cd -- "$(dirname -- "$0")" && pwd) || exit 1
. "$here/../../tools/usage.sh"
. "$here/../fetch_source.sh"
folder=$(mktemp -d) || exit 1
trap 'rm -rf "$folder"' EXIT

install_kit "$here/../.." && cd "$folder" && fetch_source libcoap3 4.3.1-1 << 'SUMS' || exit 1
7c3601c3235d5d7aea4118c79f6ed3a186da7802bf944e3449128e5b312adfe3  libcoap3_4.3.1.orig.tar.bz2
SUMS
tar -xjf libcoap3_4.3.1.orig.tar.bz2 && cp libcoap-4.3.1/LICENSE "$here/LICENSE.libcoap" && cp "$here/orders.c" . || exit 1
# shellcheck disable=SC2046 # Names of the sources have no blanks.
"$here/../../guests/build" --libc --printf whole -I "$here" -I libcoap-4.3.1/include orders.c \
    --with $(find libcoap-4.3.1/src -maxdepth 1 -name '*.c' ! -name '*riot*' | sort) || exit 1
cp orders.wasm orders.places "$here"
"$here/../../guests/places" "$here/orders.places" < "$here/debug.in" > "$here/debug"
