#!/bin/sh
# Brings over the crate `target` too: port.py passes over a folder of that name, as one that cargo builds in. So port.py
# runs in a clone of the older commit, where the crate has another name, and crates/ is taken from there.
#   tools/port_target.sh OLDER-COMMIT      at the top, after port.py
set -eu
room=$(mktemp -d)
git clone --quiet . "$room/clone"
git -C "$room/clone" checkout --quiet "$1"
here=$(pwd)
cd "$room/clone"
git mv crates/target crates/aimed
sed -i -E 's/\btarget\b/aimed/g' crates.txt
grep -rlE 'Rattle·target\b|\btarget::' crates | xargs sed -i -E 's/Rattle·target\b/Rattle·aimed/g; s/\btarget::/aimed::/g'
git -c user.name=port -c user.email=port@localhost commit --quiet --all --message 'another name'
python3 "$(dirname "$(rt doc)")/port/port.py"
grep -rlE 'Rattle\.aimed\b|\baimed::' crates | xargs sed -i -E 's/Rattle\.aimed\b/Rattle.target/g; s/\baimed::/target::/g'
! grep -rnw aimed crates
mv crates/aimed crates/target
rm -rf "$here/crates"
cp -R crates "$here/crates"
rm -rf "$room"
