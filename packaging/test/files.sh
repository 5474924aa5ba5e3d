# For tools/install_test: what is installed, and what is refused. It has top, tree, work, prefix, version and series.

installs() { # LIST PREFIX [DESTDIR]
    list=$1
    shift
    "$top/tools/install" "$@" >"$list"
}

wanted() {
    cat <<PATHS
bin/lister
bin/tabulate
include/masoritun.h
lib/cmake/masoritun
lib/cmake/masoritun/masoritun-config-version.cmake
lib/cmake/masoritun/masoritun-config.cmake
lib/libmasoritun.a
lib/libmasoritun.so
lib/libmasoritun.so.$series
lib/libmasoritun.so.$version
lib/pkgconfig/masoritun.pc
share/doc/masoritun
share/doc/masoritun/CHANGELOG.md
share/doc/masoritun/NOTICE
share/doc/masoritun/README.md
share/man/man1/lister.1
share/man/man1/tabulate.1
PATHS
}

# The paths of a folder without those that others use too.
paths_of() { (cd "$1" && find . ! -type d -o -name masoritun | sed 's|^\./||' | sort); }
listed() { sed "s|^$work/a/||" "$work/a.list" | sort; }

# Each path with its mode, a link with its goal, and each file's check sum.
print_of() { (cd "$1" && find . -mindepth 1 -exec stat -c '%A %N' {} + | sort && find . -type f -exec cksum {} + | sort); }

same_twice() {
    print_of "$work/a" >"$work/first" && installs "$work/again.list" "$work/a" && diff "$work/a.list" "$work/again.list" &&
        print_of "$work/a" | diff "$work/first" -
}

# Programs and folders 755, other files 644.
has_modes() {
    find "$1" -type d ! -perm 755 >"$work/odd" && find "$1/bin" -type f ! -perm 755 >>"$work/odd" &&
        find "$1" -type f ! -path '*/bin/*' ! -perm 644 >>"$work/odd" && cat "$work/odd" && [ ! -s "$work/odd" ]
}

installs_narrow() { (umask 077 && installs "$work/narrow.list" "$work/narrow") && has_modes "$work/narrow"; }

removes_by_list() {
    [ -n "$(paths_of "$work/narrow")" ] && xargs -d '\n' rm -d <"$work/narrow.list" && [ -z "$(paths_of "$work/narrow")" ]
}

# The tree, the temporary folder and PREFIX itself stay as they were.
stages() {
    mkdir "$work/temporary" && print_of "$tree" >"$work/before" &&
        env TMPDIR="$work/temporary" MASORITUN_LIB= "$tree/tools/install" "$prefix" "$work/stage" >"$work/stage.list" &&
        print_of "$tree" | diff "$work/before" - && [ -z "$(ls "$work/temporary")" ] && [ ! -e "$prefix" ]
}

# The same files as without DESTDIR, but for the prefix that masoritun.pc tells, and nothing beside them.
stages_the_same() {
    cp -a "$work/stage" "$work/likened" && pc=$work/likened$prefix/lib/pkgconfig/masoritun.pc && grep -qx "prefix=$prefix" "$pc" &&
        sed -i "s|^prefix=.*|prefix=$work/a|" "$pc" && same 'print_of "$work/a"' 'print_of "$work/likened$prefix"' &&
        same 'find "$work/stage" ! -type d | sort' 'grep -v "/masoritun$" "$work/stage.list" | sort'
}

# refused WORDS COMMAND..: one line with these words, no success, and nothing made.
refused() {
    words=$1
    shift
    fails "$@" 2>"$work/told" && cat "$work/told" && [ "$(wc -l <"$work/told")" -eq 1 ] && grep -q "^install: .*$words" "$work/told" &&
        [ ! -e "$work/none" ] && [ -z "$(ls "$work/empty")" ]
}

# without FILE WORDS: the tree's install refuses where it lacks the file.
without() {
    mv "$tree/$1" "$work/aside" && refused "$2" env MASORITUN_LIB= "$tree/tools/install" "$work/none" && mv "$work/aside" "$tree/$1"
}

# An archive that does not link is found out before anything is copied; what the linker says follows the message.
refuses_archive() {
    echo no archive >"$work/wrong.a" && fails env MASORITUN_LIB="$work/wrong.a" "$top/tools/install" "$work/none" 2>"$work/told" &&
        head -n 1 "$work/told" | grep "^install: .*wrong\.a" && [ ! -e "$work/none" ]
}

tells_usage() { # STATUS ARGUMENT..
    status=0
    wanted_status=$1
    shift
    "$top/tools/install" "$@" >"$work/told" 2>&1 || status=$?
    [ "$status" -eq "$wanted_status" ] && same 'echo "usage: tools/install PREFIX [DESTDIR]"' 'cat "$work/told"'
}
