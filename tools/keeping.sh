#!/bin/sh
# A toolchain whose clang keeps the modules that the kit's compiler hands to it.
# usage: keeping.sh DIR   makes DIR/toolchain; a run over it leaves DIR/kept1.bc, DIR/kept2.bc ..
set -eu
dir=$1
kit=$(sh "$(dirname "$0")/kit.sh")
own=$dir/toolchain
mkdir -p "$own/bin"
ln -s "$kit/toolchain/lib" "$own/lib"
for tool in "$kit"/toolchain/bin/*; do ln -s "$tool" "$own/bin"; done
rm "$own/bin/clang"
cat >"$own/bin/clang" <<TEXT
#!/bin/sh
k=1
while [ -e "$dir/kept\$k.bc" ]; do k=\$((k + 1)); done
cp module.bc "$dir/kept\$k.bc"
exec "$kit/toolchain/bin/clang" "\$@"
TEXT
chmod +x "$own/bin/clang"
