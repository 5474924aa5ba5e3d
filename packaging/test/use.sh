# For tools/install_test: what was installed in $work/a and elsewhere is used. It has top, source, lib, work, prefix, processor,
# version and series.

c() { ${CC:-cc} -std=c99 -O2 -Wall -Wextra -pedantic -Werror "$@"; }

package() { # PREFIX OPTION..
    folder=$1
    shift
    env PKG_CONFIG_LIBDIR="$folder/lib/pkgconfig" pkg-config "$@" masoritun
}

# Three equal levels by hand: 32768 is 3 times 10922 and 2, which go to the lower bands.
expected() { printf '10923 10923 10922\nversion %s\nas the header\n' "$version"; }
prints() { expected >"$work/expected" && "$@" | diff "$work/expected" -; }
needs_shared() { readelf -dW "$1" | grep "NEEDED.*\[libmasoritun\.so\.$series\]"; }

with_shared() { # PREFIX OPTION..
    flags=$(package "$@" --cflags --libs) && echo "$flags" && c "$source/program.c" $flags -o "$work/program" &&
        needs_shared "$work/program" && prints env LD_LIBRARY_PATH="$1/lib" ${RUN:-} "$work/program"
}

with_sysroot() { (export PKG_CONFIG_SYSROOT_DIR="$work/stage" && with_shared "$work/stage$prefix"); }

with_archive() {
    flags=$(package "$1" --cflags) && c "$source/program.c" $flags "$1/lib/libmasoritun.a" -o "$work/program" &&
        fails needs_shared "$work/program" && prints ${RUN:-} "$work/program"
}

all_static() {
    flags=$(package "$1" --static --cflags --libs) && c -static "$source/program.c" $flags -o "$work/program" &&
        prints ${RUN:-} "$work/program"
}

configures() { # PREFIX VERSION
    across=
    [ "$processor" = "$(uname -m)" ] || across="-DCMAKE_SYSTEM_NAME=Linux -DCMAKE_SYSTEM_PROCESSOR=$processor"
    rm -rf "$work/build" && env CC="${CC:-cc}" cmake -S "$source" -B "$work/build" $across -DCMAKE_PREFIX_PATH="$1" -DWANTED="$2" \
        -DCMAKE_FIND_USE_CMAKE_SYSTEM_PATH=OFF -DCMAKE_FIND_USE_PACKAGE_REGISTRY=OFF
}

with_cmake() { # PREFIX VERSION
    configures "$1" "$2" && grep "^masoritun_DIR:PATH=$1/" "$work/build/CMakeCache.txt" && cmake --build "$work/build" &&
        needs_shared "$work/build/with_shared" && fails needs_shared "$work/build/with_static" &&
        prints ${RUN:-} "$work/build/with_shared" && prints ${RUN:-} "$work/build/with_static"
}

# The installed version was looked at and not taken.
cmake_refuses() { # VERSION
    fails configures "$work/a" "$1" >"$work/told" 2>&1 && cat "$work/told" && grep "$work/a/.*version: $version" "$work/told"
}

header_names() { sed -n 's/^[a-z0-9_]* \(mst_[a-z0-9_]*\)(.*/\1/p' "$work/a/include/masoritun.h" | sort; }
exports() { readelf --dyn-syms -W "$1" | awk '$5 != "LOCAL" && $7 ~ /^[0-9]+$/ { print $8 }' | sort; }
asks_for() { readelf --dyn-syms -W "$1" | awk '$5 == "GLOBAL" && $7 == "UND" { sub("@.*", "", $8); print $8 }'; }
dynamic() { readelf -dW "$work/a/lib/libmasoritun.so" | grep "$1"; }

# Installed from an archive that has one more name.
keeps_others_in() {
    echo 'int outside(void); int outside(void) { return 1; }' >"$work/outside.c" && c -fPIC -c "$work/outside.c" -o "$work/outside.o" &&
        cp "$lib" "$work/more.a" && "$(${CC:-cc} -print-prog-name=ar)" r "$work/more.a" "$work/outside.o" &&
        env MASORITUN_LIB="$work/more.a" "$top/tools/install" "$work/more" && readelf -sW "$work/more/lib/libmasoritun.so" | grep -w outside &&
        same header_names 'exports "$work/more/lib/libmasoritun.so"'
}

asks_only_libc() {
    fails eval 'dynamic "(NEEDED)" | grep -v "\[libc\.so\.6\]"' &&
        fails eval 'asks_for "$work/a/lib/libmasoritun.so" | grep -vx "memcpy\|memset\|memmove"'
}

plain_code() {
    readelf -lW "$work/a/lib/libmasoritun.so" | grep 'GNU_STACK .* RW  *0x' && dynamic 'NOW' && fails dynamic 'TEXTREL'
}

# Without the option the names do get out, so that it is the option that keeps them in.
hidden_in_plugin() {
    flags=$(package "$work/a" --cflags) && set -- -fPIC -shared "$source/plugin.c" $flags "$work/a/lib/libmasoritun.a" -o "$work/plugin.so" &&
        c "$@" && exports "$work/plugin.so" | grep -x mst_split && c "$@" -Wl,--exclude-libs,ALL &&
        same 'echo plugin_gains' 'exports "$work/plugin.so"'
}

lints() { mandoc -T lint -W warning "$work/a/share/man/man1/$1.1"; }

renders() {
    MANWIDTH=80 man -l "$work/a/share/man/man1/$1.1" >"$work/page" 2>"$work/told" && cat "$work/told" && [ ! -s "$work/told" ] &&
        grep "^ *$1 -" "$work/page" && grep '^SEE ALSO' "$work/page" && man -M "$work/a/share/man" -w "$1" | grep "^$work/a/"
}

tabulate() { ${RUN:-} "$work/a/bin/tabulate" "$@"; }
lister() { ${RUN:-} "$work/a/bin/lister" "$@"; }

# The lines of the stored table, whose one block has 5 rows of 3 gains from byte 8 on.
stored_rows() {
    echo 'bands 3 rows 5'
    od -An -v -tu2 -j8 -N30 -w6 "$top/crates/tabulate/stdout" | awk '{ print NR - 1, $1, $2, $3 }'
}

lists_stored() {
    tabulate 3 <"$top/crates/tabulate/stdin" >"$work/table" && cmp "$work/table" "$top/crates/tabulate/stdout" &&
        same stored_rows 'lister <"$work/table"' && same stored_rows 'lister "$work/table"'
}

as_the_page() {
    same "sed -n '/^bands 3 rows 1\$/,/^0 /p' '$work/a/share/man/man1/tabulate.1'" 'head -c 12 /dev/zero | tabulate 3 | lister'
}

refuse_as_the_pages() {
    tabulate </dev/null >"$work/table" 2>"$work/told" && [ ! -s "$work/table" ] && head -n 1 "$work/told" | grep -x 'refused 7 0' &&
        sed -n 2p "$work/told" | grep '^usage: tabulate BANDS' && same 'echo refused 9 0' 'lister "$work/none" 2>"$work/told"' &&
        grep 'No such file' "$work/told"
}

leaves_input() { echo input | { tabulate 2>"$work/told" && same 'echo input' cat; }; }

# tells_full NAME INPUT ARGUMENT..
tells_full() {
    who=$1 input=$2
    shift 2
    "$who" "$@" <"$input" >/dev/full 2>"$work/told" && same 'echo "$who: standard output: No space left on device (os error 28)"' 'cat "$work/told"'
}
