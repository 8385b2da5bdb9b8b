#!/bin/sh
# library.sh FOLDER: makes FOLDER/libjuzvarola.a, the proved library with coverage for AFL++. rt compiles what is proved as ever, from a folder like its kit's own, whose clang adds
# the coverage to the bitcode that it is given. The archive in the crate's out/ is left as it was.
set -eu
mkdir -p "$1/kit/bin" "$1/kit/toolchain/bin"
folder=$(cd "$1" && pwd)
own=$(dirname "$(dirname "$(readlink -f "$(command -v "${RT:-rt}")")")")
for file in "$own"/* "$own"/bin/* "$own"/toolchain/lib "$own"/toolchain/bin/*; do
    place=$folder/kit/${file#"$own"/}
    case ${file#"$own"/} in
    bin | toolchain | toolchain/bin/clang) ;;
    # rt finds its kit by where it is itself.
    bin/rt | bin/*.py) cp -f "$file" "$place" ;;
    *) ln -sfn "$file" "$place" ;;
    esac
done
cat > "$folder/kit/toolchain/bin/clang" << END
#!/bin/sh
for word in "\$@"; do
    [ "\$word" != -c ] || set -- "\$@" -fsanitize-coverage=trace-pc-guard
done
exec "$own/toolchain/bin/clang" "\$@"
END
chmod +x "$folder/kit/toolchain/bin/clang"
cd "$(dirname "$0")/../../crates/juzvarola"
made=out/libjuzvarola.a
[ ! -e $made ] || cp -p $made "$folder/own.a"
"$folder/kit/bin/rt" lib > "$folder/library.log" 2>&1 < /dev/null || { tail -n 5 "$folder/library.log" >&2; exit 1; }
mv -f $made "$folder/libjuzvarola.a"
[ ! -e "$folder/own.a" ] || mv -f "$folder/own.a" $made
