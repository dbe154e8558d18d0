# The package: read by `tebalung package`. It uses of `tebalung`: here, programs, find_kit, find_commit, git_here, version_line, open_out, complain, die.
# shellcheck shell=sh disable=SC2015,SC2034,SC2154

# What a package has.
fill() { # FOLDER
    mkdir -p "$1/bin" "$1/lib" "$1/crates/trace/data" &&
        cp "$here/tebalung" "$here/replay" "$here/explain" "$here/timeline" "$here/README.md" "$1" &&
        cp -R "$here/view" "$1" &&
        cp "$here/crates/trace/data/sample.log" "$1/crates/trace/data" &&
        cp "$programs/replay" "$programs/trace" "$1/bin" &&
        cp "$library/ld-linux-x86-64.so.2" "$library/libc.so.6" "$1/lib" &&
        echo "The loader and the C library of the Rattle kit as they are there: the GNU C Library, under the GNU Lesser General Public License." >"$1/lib/README" &&
        version_line ', package for x86-64 Linux' >"$1/PACKAGE"
}

# The same commit gives the same bytes.
make_package() {
    find_commit && when=$(git_here log -1 --format=%ct) || die "package: which commit it is of is not known: git does not tell it of $(absolute)"
    find_kit || die "package: the loader and the C library are those of the Rattle kit: put its rt on the PATH, or set RATTLE_HOME"
    library=$kit/toolchain/lib
    open_out whole
    room=$(mktemp -d "${TMPDIR:-/tmp}/tebalung.XXXXXX" 2>/dev/null) || die "${TMPDIR:-/tmp}: cannot be written"
    name=tebalung-$commit
    said=$(fill "$room/$name" 2>&1 && LC_ALL=C tar -C "$room" --sort=name --mtime="@$when" --owner=0 --group=0 --numeric-owner --mode=u=rwX,go=rX -cf - "$name" 2>&1 >&3) ||
        said=${said:-package: tar failed}
    complain
    status=0
}
