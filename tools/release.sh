# The program of release/ for this machine. To be read at the top of the repository, behind tools/listing.sh.

# Reads the MANIFEST: the version and, of what the program and the packages are made from, the sum and the paths. Names the
# packages that this machine can use: its own, and the one in C where that can be compiled. Fails where there is none, the
# release is not to be used, or an edit would not show, since `find` lists nothing.
read_manifest() {
    local word rest
    [ "${POCSAG_RELEASE-}" != no ] && [ -r release/MANIFEST ] && [ "$(listing release/MANIFEST)" ] || return 1
    while read -r word rest; do
        case $word in
        version) version=$rest ;;
        program) of_program=$rest ;;
        packages) of_packages=$rest ;;
        esac
    done <release/MANIFEST
    packages=() in_c=pocsag-$version-c
    [ "$OSTYPE" != linux-gnu ] || [ ! -r "release/pocsag-$version-linux-$HOSTTYPE.tar.xz" ] || packages+=("pocsag-$version-linux-$HOSTTYPE")
    [ ! -r "release/$in_c.tar.xz" ] || ! command -v cc >/dev/null || ! command -v make >/dev/null || packages+=("$in_c")
    [ ${#packages[@]} != 0 ]
}

# A sum of the names and contents of the files below some paths.
sum_of() {
    find "$@" -type f ! -path '*/__pycache__/*' -print0 2>/dev/null | LC_ALL=C sort -z | xargs -0 sha256sum | sha256sum | cut -d ' ' -f 1
}

# Puts a package's files into a folder, all of them or, where nothing else can read the package, the program alone.
unpack() {
    local file=release/$1.tar.xz
    if command -v xz >/dev/null; then
        tar -xJf "$file" -C "$2" --strip-components=1 --no-same-owner
    elif command -v python3 >/dev/null; then
        python3 -c 'import lzma, sys; sys.stdout.buffer.write(lzma.open(sys.argv[1]).read())' "$file" | tar -x -C "$2" --strip-components=1 --no-same-owner
    elif [ "$1" != "$in_c" ] && command -v dpkg-deb >/dev/null; then
        file=$(grep -o "  pocsag_[^/]*_$(dpkg --print-architecture)\.deb" release/SHA256SUMS)
        dpkg-deb --fsys-tarfile "release/${file#  }" | tar -x -C "$2" --strip-components=2 --no-same-owner ./usr/bin/pocsag
    else
        echo "pocsag: nothing here can read $file: xz is missing" >&2
        return 1
    fi
}

# Whether each of a package's files in a folder is as the MANIFEST says.
is_right() { sed -n "s|^\([0-9a-f]*  \)$1.tar.xz/|\1|p" release/MANIFEST | (cd "$2" && sha256sum -c --status --ignore-missing -) >/dev/null 2>&1; }

# Compiles the program where the package has it in C.
compile() {
    [ "$1" = "$in_c" ] || return 0
    echo "pocsag: release/ has no program that starts here, on $HOSTTYPE with $OSTYPE: compiling $1.tar.xz, once: one to four minutes" >&2
    make -s -C "$2" bin/pocsag >&2
}

# Whether a folder has a file, and the program in it starts on this machine.
starts() { [ -e "$1/$2" ] && "$1/bin/pocsag" --version >/dev/null 2>&1; }

# Unpacks a package into a folder where that has not a file, the file that is wanted of it.
unpack_package() {
    local package=$1 folder=$2 wanted=$3 room=out/release/unpacking.$$
    [ ! -e "$folder/$wanted" ] || return 0
    mkdir -p "$room" || return 1
    if ! unpack "$package" "$room" || ! is_right "$package" "$room" || ! compile "$package" "$room" || ! starts "$room" "$wanted"; then
        echo "pocsag: release/$package.tar.xz is not what its MANIFEST says, or does not start here, and is not used" >&2
        rm -rf "$room"
        return 1
    fi
    # What stands there is either whole, as another call left it just now, or the program alone, which is moved away.
    if ! mv -T "$room" "$folder" 2>/dev/null; then
        [ -e "$folder/$wanted" ] || { mv -T "$folder" "$room.older" && mv -T "$room" "$folder"; } 2>/dev/null || true
        rm -rf "$room" "$room.older"
    fi
}

# Unpacks the first of the packages that this machine can use, below out/release, where a file of it is not there, and prints
# its folder. The one in C has the program alone.
unpack_release() {
    local sum folder package wanted
    sum=$(sha256sum <release/MANIFEST) || return 1
    for package in "${packages[@]}"; do
        folder=out/release/${sum:0:16} wanted=$1
        [ "$package" != "$in_c" ] || { folder+=-c wanted=bin/pocsag; }
        unpack_package "$package" "$folder" "$wanted" || continue
        ln -sfn "${folder##*/}" out/release/current
        echo "$folder"
        return 0
    done
    return 1
}

# Whether the sources of a line of the MANIFEST, a sum and paths, are these.
# shellcheck disable=SC2086 # the paths are words
are_these() { [ "$(sum_of ${1#* })" = "${1%% *}" ]; }

# Unpacks the release where its program is of these sources, and writes down how they were listed.
take_program() {
    local listed
    read_manifest || return 1
    # shellcheck disable=SC2086 # the paths are words
    listed=$(listing ${of_program#* })
    are_these "$of_program" && unpack_release bin/pocsag >/dev/null || return 1
    printf '%s\n' "${of_program#* }" "${of_program%% *}" "$listed" >out/release/built.$$ && mv out/release/built.$$ out/release.built
}

# Unpacks the release where all of its packages are of these sources, and prints its folder.
take_packages() {
    read_manifest && are_these "$of_packages" && unpack_release lib/libpocsag.a
}

# Unpacks the release, of whatever sources it is, for a file of it, says so, and prints its folder.
take_old() {
    read_manifest && unpack_release "$1" || return 1
    echo "pocsag: release $version is of other sources than these, and is taken since nothing can be built here (README, Build it)" >&2
}
