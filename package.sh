#!/bin/sh
# Makes of the proved program a package for Debian and a tar archive, in FOLDER, with their sums: the program,
# `pulsefarm-erl` where `erlc` is here, the page for `man`, completions, examples, scripts for many machines and for CI,
# and docs with what is trusted. Each holds its commit, its kit, and the sums of its files. Of one commit and one
# program each run makes the same bytes.
#
# Usage: package.sh [FOLDER]; the folder is out/ at the top where none is named. The program is proved first, which
# takes seconds where install.sh or the gate has proved it; where PROGRAM names one, that one is taken, by whose word it
# is proved.
set -eu
top=$(cd "$(dirname "$0")" && pwd)
out=${1:-$top/out}
room=$(mktemp -d)
trap 'rm -rf "$room"' EXIT
umask 022
export LC_ALL=C

fail() {
  echo "package.sh: $1" >&2
  exit 1
}

# A package is of a commit: what goes into it and into the program is as the commit has it. (The gate lays its mutants
# elsewhere.)
git -C "$top" rev-parse -q --verify HEAD > /dev/null 2>&1 || fail "this is no clone, so there is no commit to make a package of"
git -C "$top" diff --quiet HEAD -- LICENSE ':(glob)*.md' HANDLES crates.txt crates ':!crates/*/mutants' docs examples install install.sh package.sh port ||
  fail "there are changes that aren't committed: a package is of a commit"
commit=$(git -C "$top" rev-parse HEAD)
SOURCE_DATE_EPOCH=$(git -C "$top" log -1 --format=%ct)
export SOURCE_DATE_EPOCH

proof="none was seen, as the program was named by PROGRAM"
if [ -z "${PROGRAM:-}" ]; then
  python3 "$top/install/prove.py" "$top"
  PROGRAM=$top/crates/pulsefarm/out/pulsefarm
  proof="by rt ci, of this commit"
fi
release=$("$PROGRAM" --version | sed -n 's/^pulsefarm \([0-9.]*\)$/\1/p')
[ -n "$release" ] || fail "$PROGRAM tells no version"
version=$release+git$(date -u -d "@$SOURCE_DATE_EPOCH" +%Y%m%d).$(git -C "$top" rev-parse --short=12 HEAD)
# The least C library that has all that the program calls.
needed=$(grep -ao 'GLIBC_[0-9][0-9.]*' "$PROGRAM" | sort -Vu | tail -n 1 | cut -d_ -f2)
[ -n "$needed" ] || fail "$PROGRAM doesn't tell which C library it wants"

# The files below $1, a prefix like /usr.
lay() {
  docs=$1/share/doc/pulsefarm
  install -D -m 755 "$PROGRAM" "$1/bin/pulsefarm"
  install -D -m 644 "$top/docs/pulsefarm.1" "$1/share/man/man1/pulsefarm.1"
  gzip -9n "$1/share/man/man1/pulsefarm.1"
  install -D -m 644 "$top/docs/pulsefarm.bash" "$1/share/bash-completion/completions/pulsefarm"
  install -D -m 644 "$top/docs/pulsefarm.zsh" "$1/share/zsh/vendor-completions/_pulsefarm"
  install -D -m 644 "$top/docs/pulsefarm.fish" "$1/share/fish/vendor_completions.d/pulsefarm.fish"
  mkdir -p "$docs/docs" "$docs/examples" "$docs/port" "$1/share/pulsefarm"
  cp "$top"/*.md "$docs"
  tell_licence > "$docs/copyright"
  cp "$top"/docs/*.md "$top"/docs/*.svg "$top"/docs/*.json "$docs/docs"
  cp "$top"/examples/*.erl "$top/examples/README.md" "$docs/examples"
  cp -r "$top/examples/many" "$top/examples/ci" "$1/share/pulsefarm"
  find "$1/share/pulsefarm" -name __pycache__ -prune -exec rm -rf {} +
  lay_erlang "$1"
  tell_build > "$docs/BUILD"
  (cd "$1" && find . -type f ! -name SHA256SUMS | sort | sed 's|^\./||' | xargs sha256sum) > "$room/sums"
  cp "$room/sums" "$docs/SHA256SUMS"
  find "$1" -type d -exec chmod 755 {} +
  find "$1" ! -type l ! -perm -u+x -exec chmod 644 {} +
  find "$1" ! -type l -type f -perm -u+x -exec chmod 755 {} +
  find "$1" -exec touch -h -d "@$SOURCE_DATE_EPOCH" {} +
}

# `pulsefarm-erl`, compiled so that no path of this machine is in it.
lay_erlang() {
  command -v erlc > /dev/null || {
    echo "there is no erl: pulsefarm-erl, which takes plain Erlang, is left out" >&2
    return
  }
  mkdir -p "$1/lib/pulsefarm/port"
  cp -r "$top/port" "$room/port"
  sh "$room/port/build.sh"
  rm -f "$room"/port/ebin/*.beam
  erlc +deterministic +debug_info -o "$room/port/ebin" "$room"/port/src/*.erl
  cp -r "$room/port/ebin" "$room/port/priv" "$room/port/pulsefarm-erl" "$1/lib/pulsefarm/port"
  cp -r "$top/port/ENCODINGS.md" "$top/port/examples" "$1/share/doc/pulsefarm/port"
  ln -s ../lib/pulsefarm/port/pulsefarm-erl "$1/bin/pulsefarm-erl"
  install -D -m 644 "$top/port/pulsefarm-erl.1" "$1/share/man/man1/pulsefarm-erl.1"
  gzip -9n "$1/share/man/man1/pulsefarm-erl.1"
  install -D -m 644 "$top/port/pulsefarm-erl.bash" "$1/share/bash-completion/completions/pulsefarm-erl"
  install -D -m 644 "$top/port/pulsefarm-erl.zsh" "$1/share/zsh/vendor-completions/_pulsefarm-erl"
  install -D -m 644 "$top/port/pulsefarm-erl.fish" "$1/share/fish/vendor_completions.d/pulsefarm-erl.fish"
  rm -rf "$room/port"
}

# The licence, with its whole text, since the archive goes where there is no Debian.
tell_licence() {
  cat << END
Format: https://www.debian.org/doc/packaging-manuals/copyright-format/1.0/
Upstream-Name: pulsefarm

Files: *
Copyright: the authors of pulsefarm
License: Apache-2.0
END
  # (of a field with more lines each begins with a blank, and an empty one is a dot)
  sed 's/^$/./; s/^/ /' "$top/LICENSE"
}

# What the package is of.
tell_build() {
  echo "version $version"
  echo "commit $commit"
  echo "kit $(rt version 2> /dev/null | head -n 1)"
  echo "proof $proof"
  echo "libc6 $(getconf GNU_LIBC_VERSION | cut -d' ' -f2), at least $needed"
  echo "program $(sha256sum < "$PROGRAM" | cut -d' ' -f1)"
}

# The package for Debian, of the files below $1.
make_package() {
  mkdir -p "$1/DEBIAN"
  cat > "$1/DEBIAN/control" << END
Package: pulsefarm
Version: $version
Architecture: amd64
Maintainer: $(git -C "$top" log -1 --format='%an <%ae>')
Section: devel
Priority: optional
Installed-Size: $(find "$1/usr" -type f -printf '%s\n' | awk '{ sum += $1 } END { printf "%d", sum / 1024 + 1 }')
Depends: libc6 (>= $needed)
Recommends: python3, erlang-base, erlang-syntax-tools, erlang-src, erlang-eunit
Description: tests Erlang programs for races
 Modules of a first-order profile of Erlang are run under a scheduler that makes
 every choice itself; each run is recorded, repeated, shrunk and drawn. The
 program is proved; what that rests on stands in docs/TRUSTED.md.
 pulsefarm-erl takes plain Erlang; it is tested and not proved.
END
  (cd "$1" && find usr -type f | sort | xargs md5sum) > "$room/md5sums"
  cp "$room/md5sums" "$1/DEBIAN/md5sums"
  chmod 755 "$1/DEBIAN"
  chmod 644 "$1"/DEBIAN/*
  find "$1" -exec touch -h -d "@$SOURCE_DATE_EPOCH" {} +
  dpkg-deb --root-owner-group -Zgzip -z9 --build "$1" "$out/pulsefarm_${version}_amd64.deb" > /dev/null
}

# The archive, of the files below $1.
make_archive() {
  tar -C "$room" --sort=name --format=gnu --owner=0 --group=0 --numeric-owner --mtime="@$SOURCE_DATE_EPOCH" -c "${1##*/}" | gzip -9n > "$out/${1##*/}.tar.gz"
}

mkdir -p "$out"
out=$(cd "$out" && pwd)
lay "$room/debian/usr"
cp -a "$room/debian/usr" "$room/pulsefarm-$version"
make_archive "$room/pulsefarm-$version"
make_package "$room/debian"
cd "$out"
sha256sum "pulsefarm-$version.tar.gz" "pulsefarm_${version}_amd64.deb" | tee SHA256SUMS
