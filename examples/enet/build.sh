#!/bin/sh
# Fetches ENet's source with apt-get, as the source package of godot carries it, checks it, and builds from it enet.wasm, and
# faulty.wasm with the fault of fault.patch, each with its places. If the guests' kit is missing it is installed first, as root. The
# modules are in the repository, so this is for a change of the guest.
# Usage: build.sh [ARCHIVE]   (the package's archive, if it was fetched before)
here=$(CDPATH='' cd -- "$(dirname -- "$0")" && pwd) || exit 1
. "$here/../../tools/usage.sh"
. "$here/../fetch_source.sh"
name=godot_3.2.3-stable.orig.tar.gz
checksum=4c2a8e7da1ad05c6223b0ff6cf2be124dad6708b56a8ec9910dc2aaf82a553ae
archive=${1:+$(realpath -- "$1")}
folder=$(mktemp -d) || exit 1
trap 'rm -rf "$folder"' EXIT

# Compiles a guest with the ENet of a folder: FOLDER NAME.
build() {
    "$here/../../guests/build" --lines -I "$here" -I "$here/platform" -I "$1" "$2.c" && cp "$2.wasm" "$2.places" "$here"
}

install_kit "$here/../.." && cd "$folder" || exit 1
if [ -n "$archive" ]; then
    echo "$checksum  $archive" | sha256sum -c --quiet - || exit 1
else
    echo "$checksum  $name" | fetch_source godot 3.2.3-stable-1 && archive=$name || exit 1
fi
tar -xzf "$archive" godot-3.2.3-stable/thirdparty/enet && cd godot-3.2.3-stable || exit 1
# What godot changed is taken back, which leaves ENet 1.3.15.
patch -s -R -p1 < thirdparty/enet/patches/godot.patch && mv thirdparty/enet ../enet && cd .. || exit 1
cp enet/LICENSE "$here/LICENSE.enet" || exit 1
cp -r enet faulty && patch -s -d faulty -p1 < "$here/fault.patch" || exit 1
# The lines of both modules are those of enet.c.
cp "$here/enet.c" . && echo '#include "enet.c"' > faulty.c || exit 1
build enet enet && build faulty faulty || exit 1
"$here/../../guests/places" "$here/faulty.places" < "$here/debug.in" > "$here/debug"
