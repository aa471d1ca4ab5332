#!/bin/sh
# Makes packages of the proved program: a tarball and a Debian package, each with the program, what gates a folder, the page for `man`, and
# completions. tools/build.py or tools/prove.py has to prove and build it first. Each package is tried in a root of its own, without the kit.
# usage: tools/release.sh FOLDER [VERSION]    puts them into FOLDER; without VERSION it is the program's, or that of the commit
# It takes dpkg-deb, and for the try root's rights or `unshare`. Debian wants the address of whoever maintains a package: say yours in
# MAINTAINER ('A Name <name@host>'). Without it the Debian package isn't made, and a line says so. The same commit, program and maintainer
# make the same packages, byte for byte.
set -eu
# (chroot is there, and what dpkg wants: a user's path may lack both)
export PATH="$PATH:/usr/sbin:/sbin"
root=$(CDPATH= cd -- "$(dirname -- "$0")/.." && pwd -P)
if [ $# -lt 1 ] || [ $# -gt 2 ]; then
    echo "usage: $0 FOLDER [VERSION]" >&2
    exit 4
fi
maintainer=${MAINTAINER-}
case $maintainer in
    '' | ?*\ \<?*@?*\>) ;;
    *)
        echo "release: MAINTAINER is 'A Name <name@host>', not '$maintainer'" >&2
        exit 4
        ;;
esac
mkdir -p -- "$1"
made=$(CDPATH= cd -- "$1" && pwd -P)
room=$(mktemp -d)
trap 'rm -rf -- "$room"' EXIT

# The version of the program where it has one. Before that, a number below all others, with the commit's day and name.
version_of() {
    said=$("$room/usr/bin/protogate" --version | sed 's/^protogate //') || :
    case $said in
        [0-9]*) echo "$said" ;;
        *) echo "$(git -C "$root" log -1 --date=format:%Y%m%d --format='0~%cd.%h')$(changed)" ;;
    esac
}

# What is said after a commit's name where the files are other ones.
changed() {
    git -C "$root" diff --quiet HEAD || echo +changed
}

# The least C library that the program runs with.
needed_library() {
    grep -ao 'GLIBC_2\.[0-9]*' "$1" | sed 's/GLIBC_//' | sort -uV | tail -n 1
}

# A tarball whose entries are in the order of their names, with the time of the commit and no owner of this machine.
pack() {
    tar --sort=name --mtime="@$time" --owner=0 --group=0 --numeric-owner --mode=go=u-w -C "$1" -cf - -- "$2" | gzip -9n
}

make_tarball() {
    cp -R -- "$room/usr" "$room/$name"
    pack "$room" "$name" >"$made/$name.tar.gz"
}

# Debian has its own folder for completions of zsh, and compresses pages for `man`.
make_package() {
    mkdir -p -- "$room/deb/DEBIAN"
    cp -R -- "$room/usr" "$room/deb/usr"
    mkdir -p -- "$room/deb/usr/share/zsh/vendor-completions"
    mv -- "$room/deb/usr/share/zsh/site-functions"/_* "$room/deb/usr/share/zsh/vendor-completions"
    rmdir -- "$room/deb/usr/share/zsh/site-functions"
    gzip -9n -- "$room/deb/usr/share/man/man1"/*.1
    cat >"$room/deb/DEBIAN/control" <<END_OF_CONTROL
Package: protogate
Version: $version
Architecture: amd64
Maintainer: $maintainer
Installed-Size: $(du -sk --apparent-size "$room/usr" | cut -f 1)
Depends: libc6 (>= $(needed_library "$room/usr/libexec/protogate"))
Recommends: git, python3
Suggests: protobuf-compiler, libprotobuf-dev
Section: devel
Priority: optional
Description: check a changed .proto file before it is released
 protogate compares a proto3 message type with the type of the same name in
 a changed file. It says that the change may be released, or prints the
 shortest message that a program of the new file would misread. The answer
 is proved.
END_OF_CONTROL
    find "$room/deb" -type d -exec chmod 755 {} +
    SOURCE_DATE_EPOCH=$time dpkg-deb --root-owner-group -Zxz --build "$room/deb" "$made/protogate_${version}_amd64.deb" >/dev/null
}

# A root with a shell and the C library, and no more: what ldd names of the programs.
make_root() {
    mkdir -p -- "$1/bin" "$1/dev" "$1/tmp" "$1/var/lib/dpkg/info" "$1/var/lib/dpkg/updates"
    : >"$1/dev/null"
    : >"$1/var/lib/dpkg/status"
    cp -L -- "$(command -v dash || command -v sh)" "$1/bin/sh"
    for library in $(ldd "$1/bin/sh" "$room/usr/libexec/protogate" | grep -o '/[^ :)]*\.so[^ )]*' | sort -u); do
        mkdir -p -- "$1/$(dirname -- "$library")"
        cp -L -- "$library" "$1/$library"
    done
    cp -R -- "$root/examples/old" "$root/examples/new" "$1/tmp"
}

# Runs a command as root, or as the root of a user's own namespace.
as_root() {
    if [ "$(id -u)" -eq 0 ]; then
        "$@"
    else
        unshare --user --map-root-user "$@"
    fi
}

# Gates the example with the program of a root, and compares.
try_root() {
    status=0
    said=$(as_root chroot "$1" "$2" gate --old-dir /tmp/old --new-dir /tmp/new --old order.proto --new order.proto --type Order) || status=$?
    wanted='breaks Order 3
witness 220180
step 4 Order.note order.proto:7:9 Order.note order.proto:7:10'
    if [ "$status" -ne 1 ] || [ "$said" != "$wanted" ]; then
        printf 'release: %s of %s ended with %s, and said:\n%s\n' "$2" "$3" "$status" "$said" >&2
        exit 1
    fi
    echo "tried $3"
}

try_tarball() {
    make_root "$room/tarball"
    tar -xzf "$made/$name.tar.gz" -C "$room/tarball/tmp"
    try_root "$room/tarball" "/tmp/$name/bin/protogate" "$name.tar.gz"
}

try_package() {
    make_root "$room/installed"
    # What it depends on is there as files, of which this dpkg knows nothing.
    as_root dpkg --root="$room/installed" --force-depends --install "$made/protogate_${version}_amd64.deb" >"$room/log" 2>&1 || {
        cat "$room/log" >&2
        exit 1
    }
    try_root "$room/installed" /usr/bin/protogate "protogate_${version}_amd64.deb"
}

"$root/tools/install.sh" "$room/usr" >/dev/null
version=${2:-$(version_of)}
time=$(git -C "$root" log -1 --format=%ct)
name=protogate-$version-linux-x86_64
make_tarball
try_tarball
if [ -n "$maintainer" ]; then
    make_package
    try_package
else
    echo "release: no Debian package is made: say who maintains it in MAINTAINER ('A Name <name@host>')" >&2
fi
