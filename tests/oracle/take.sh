#!/bin/sh
# take.sh SOURCES: copies what is compiled from the port's source (the folder with fallocate.rs, clone.rs, write.rs and cow_write.rs of
# rust-fs-btrfs) to sources/ beside this file: three files as they stand, and single functions of others or wanted by themselves.
set -eu
sources=$(cd "$1" && pwd)
cd "$(dirname "$0")"
mkdir -p sources
for f in fallocate clone write; do cp "$sources/$f.rs" sources/; done
cut() { awk -v start="$3" 'index($0, start) == 1 {on=1} on {print} on && /^}/ {exit}' "$sources/$1" >"sources/$2.rs"; }
cut cow_write.rs regular_extent_item 'pub(crate) fn regular_extent_item('
cut fallocate.rs items_after 'fn items_after('
