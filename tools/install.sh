#!/bin/sh
# Installs the proved program, what gates a folder with the files that one copies for it, the pages for `man`, and completions:
# tools/install.sh [PREFIX], by default /usr/local. tools/build.py or tools/prove.py has to prove and build the program first; nothing else is
# installed. What is installed names no path, so a folder of it may be moved or packed whole.
set -eu
root=$(CDPATH= cd -- "$(dirname -- "$0")/.." && pwd -P)
prefix=${1:-/usr/local}
status=0
PROTOGATE_PROVED_ONLY=1 "$root/protogate" --help >/dev/null || status=$?
# Help ends with 4. Where there is no proved program the script ends with 127, and says so.
if [ "$status" -ne 4 ]; then
    [ "$status" -eq 127 ] || echo "install: protogate --help ended with $status" >&2
    exit 1
fi

# As a script that is called by its own name or by a link finds what is beside it, without another process where it can.
write_script() {
    {
        cat <<'END_OF_HEAD'
#!/bin/sh
self=$0
[ ! -L "$self" ] || self=$(readlink -f -- "$self") || exit 3
case $self in
    */*) here=${self%/*} ;;
    *) here=. ;;
esac
END_OF_HEAD
        cat
    } >"$prefix/bin/$1"
    chmod 755 "$prefix/bin/$1"
}

# Copies a file to a path below the prefix.
put() {
    mkdir -p -- "$prefix/${3%/*}"
    install -m "$1" "$root/$2" "$prefix/$3"
}

mkdir -p -- "$prefix/bin"
prefix=$(CDPATH= cd -- "$prefix" && pwd -P)
put 755 crates/protogate/out/protogate libexec/protogate
# What users call gives the program the stack that messages nested deep need, as much as the system lets a user have, asks for large pages
# and no fast bins, and where a terminal shows it says of a run of over a second that it is at work, as the script `protogate` does.
write_script protogate <<'END_OF_SCRIPT'
ulimit -S -s unlimited 2>/dev/null || ulimit -S -s "$(ulimit -H -s)" 2>/dev/null
export GLIBC_TUNABLES="${GLIBC_TUNABLES:-glibc.malloc.hugetlb=1:glibc.malloc.mxfast=0}"
say_at_work() {
    sleep 1
    case $(ps -o stat= -p $$ 2>/dev/null) in
        '' | [TtXZ]*) ;;
        *) printf 'protogate: still at work: %s\n' "$1" >&2 ;;
    esac
}
if [ -t 2 ]; then
    case ${1-} in
        compile | gate | gate-all | show | types | verify)
            said=$here/../share/protogate/said.py
            if [ "${PROTOGATE_WORDS-}" != no ] && [ -f "$said" ] && command -v python3 >/dev/null; then
                exec python3 -SB "$said" "$here/../libexec/protogate" "$@"
            fi
            { say_at_work "$1"; } </dev/null >/dev/null 3>&- 4>&- 5>&- 6>&- 7>&- 8>&- 9>&- & ;;
    esac
fi
exec "$here/../libexec/protogate" "$@"
END_OF_SCRIPT
put 755 examples/ci/gate.sh share/protogate/gate.sh
# All modules of the script: what is a Python file in that folder.
for file in "$root"/examples/ci/*.py; do
    put 644 "examples/ci/${file##*/}" "share/protogate/${file##*/}"
done
put 755 tools/report.py share/protogate/report.py
write_script protogate-ci <<'END_OF_SCRIPT'
export PROTOGATE="${PROTOGATE:-$here/protogate}" PROTOGATE_CI_NAME=protogate-ci
exec "$here/../share/protogate/gate.sh" "$@"
END_OF_SCRIPT
write_script protogate-report <<'END_OF_SCRIPT'
export PROTOGATE="${PROTOGATE:-$here/protogate}" PROTOGATE_REPORT_NAME=protogate-report
exec "$here/../share/protogate/report.py" "$@"
END_OF_SCRIPT
for file in github.yml gitlab.yml pre-commit.yaml protogate.mk; do
    put 644 "examples/ci/$file" "share/doc/protogate/examples/$file"
done
for page in protogate protogate-ci protogate-report; do
    put 644 "docs/$page.1" "share/man/man1/$page.1"
done
# Shells look for a command's completions in a file of its name, but for zsh, where the file says the names.
for name in protogate protogate-ci; do
    put 644 "tools/dist/completions/$name.bash" "share/bash-completion/completions/$name"
    put 644 "tools/dist/completions/$name.zsh" "share/zsh/site-functions/_$name"
    put 644 "tools/dist/completions/$name.fish" "share/fish/vendor_completions.d/$name.fish"
done
put 644 tools/dist/completions/protogate-ci.bash share/bash-completion/completions/protogate-report
put 644 tools/dist/completions/protogate-ci.fish share/fish/vendor_completions.d/protogate-report.fish
echo "installed $prefix/bin/protogate"
