#!/usr/bin/env bash
# Makes three Debian packages of the program and of what stands around it; `make deb` calls it.
set -euo pipefail

usage='usage: dev/package/make_deb.sh

Makes bin/bpfrec_<version>_<architecture>.deb, bin/bpfrec-tools_<version>_<architecture>.deb and
bin/python3-bpfrec_<version>_all.deb by dpkg-deb, of what dev/package/install.sh installs. The first has the command and the
program, which needs the C library alone, with pages and documents. The second has the capture, the tools in Python,
completions, the unit for systemd and the plugin for Wireshark, and depends on what these need. The third has the Python
package bpfrec, which needs Python alone. It needs bin/bpfrec (make build), bin/capture (make capture), and Debian'"'"'s dpkg and
binutils. Programs are stripped. The same sources and programs make the same bytes: all times are SOURCE_DATE_EPOCH, by
default that of the last commit. MAINTAINER names another maintainer.

Status: 0 made, 2 wrong arguments, 3 something is missing.'

case ${*:-} in
    '') ;;
    -h | --help) echo "$usage"; exit 0 ;;
    *) echo "$usage" >&2; exit 2 ;;
esac
cd "$(dirname "$0")/../.." || exit 3
if ! command -v dpkg-deb > /dev/null; then
    echo "make deb needs dpkg-deb: it is Debian's dpkg" >&2
    exit 3
fi
if [[ ! -x bin/capture ]]; then
    echo "make deb needs bin/capture: make capture makes it, with libpcap-dev" >&2
    exit 3
fi
# No mode of the caller's is in a package.
umask 022
export SOURCE_DATE_EPOCH=${SOURCE_DATE_EPOCH:-$(git log -1 --format=%ct 2> /dev/null || date -ud 2026-11-25 +%s)}
maintainer=${MAINTAINER:-bpfrec maintainers <maintainers@bpfrec.invalid>}
version=$(sed -n 's/^pub const VERSION: &str = "\(.*\)";$/\1/p' crates/rec_words/src/command_line.rt)
architecture=$(dpkg --print-architecture)
root=$(mktemp -d)
trap 'rm -rf "$root" bin/*.$$.part' EXIT

# Moves the Python package of an installation into the folder of its Debian package.
move_python() {
    mkdir -p "$root/python3-bpfrec/usr/lib"
    mv "$root/bpfrec/usr/lib/python3" "$root/python3-bpfrec/usr/lib"
}

# Moves what of an installation is the tools' into the folder of their package.
move_tools() {
    cd "$root/bpfrec/usr" || return
    local found=(libexec/bpfrec/{tool,capture} lib share/bpfrec share/fish share/zsh share/bash-completion)
    cp -a --parents "${found[@]}" "$root/bpfrec-tools/usr"
    rm -r "${found[@]}"
}

# The newest symbols of the C library that programs need.
libc_version() {
    grep -aoh 'GLIBC_2\.[0-9]*' "$@" | sed 's/GLIBC_//' | sort -Vu | tail -n 1
}

# The packages of the libraries that bin/capture runs with, beside the C library, each after a comma.
capture_packages() {
    local library
    ldd bin/capture | sed -n 's/.*=> \([^ ]*\) .*/\1/p' | grep -E 'lib(pcap|deflate|z|seccomp)\.' |
        while read -r library; do
            # A file of /usr/lib may be known as one of /lib.
            { dpkg -S "*/${library##*/}" 2> /dev/null || true; } | sed -n 's/:.*//p' | head -n 1
        done | sort -u | sed 's/^/, /' | tr -d '\n'
}

# documented NAME: puts what each package says of itself into the folder of its documents
documented() {
    local documents=$root/$1/usr/share/doc/$1
    install -D -m 644 dev/package/copyright "$documents/copyright"
    gzip -9n > "$documents/changelog.gz" << END
$1 ($version) unstable; urgency=medium

  * CHANGELOG.md of the package bpfrec has what changed for users.

 -- $maintainer  $(LC_ALL=C date -u -d "@$SOURCE_DATE_EPOCH" -R)
END
}

# packed NAME ARCHITECTURE SECTION: makes the package of what stands in its folder; its own fields come from standard
# input, and what dpkg runs from the folder of its name, if there is one
packed() {
    local folder=$root/$1 made=bin/${1}_${version}_$2.deb
    documented "$1"
    find "$folder" -exec touch -hd "@$SOURCE_DATE_EPOCH" {} +
    mkdir "$folder/DEBIAN"
    [[ ! -d dev/package/$1 ]] || install -m 755 "dev/package/$1"/* "$folder/DEBIAN"
    cat > "$folder/DEBIAN/control" << END
Package: $1
Version: $version
Architecture: $2
Maintainer: $maintainer
Installed-Size: $(du -sk --apparent-size --exclude DEBIAN "$folder" | cut -f 1)
Section: $3
Priority: optional
$(cat)
END
    # Who looks meanwhile sees the earlier package or the new one, whole.
    dpkg-deb --root-owner-group --build "$folder" "$made.$$.part" > /dev/null
    mv "$made.$$.part" "$made"
    echo "$made"
}

mkdir -p "$root/bpfrec" "$root/bpfrec-tools/usr"
DESTDIR=$root/bpfrec PREFIX=/usr ZSH=share/zsh/vendor-completions PYTHON_PACKAGES=lib/python3/dist-packages \
    dev/package/install.sh
gzip -9n "$root"/bpfrec/usr/share/man/man1/*.1
strip --strip-unneeded "$root/bpfrec/usr/libexec/bpfrec"/{bpfrec,capture}
move_python
(move_tools)
install -m 644 CHANGELOG.md "$root/bpfrec/usr/share/doc/bpfrec/CHANGELOG.md"
packed bpfrec "$architecture" net << END
Depends: libc6 (>= $(libc_version bin/bpfrec))
Suggests: bpfrec-tools
Description: recorder of Ethernet channels with classic BPF filters
 Records Ethernet channels through filters that are verified, as packets in a
 profile of IRIG 106-17 Chapter 11, and reads, judges and extracts recordings.
END
# What reads settings.
toml='python3 (>= 3.11) | python3-tomli'
packed bpfrec-tools "$architecture" net << END
Depends: bpfrec (= $version), libc6 (>= $(libc_version bin/capture)), python3 (>= 3.9), $toml$(capture_packages)
Recommends: ethtool, libcap2-bin, tcpdump
Suggests: openssh-client, wireshark
Description: capture from interfaces and tools around the recorder bpfrec
 Takes frames of network interfaces for bpfrec, looks after a recording of
 them with a status page, and converts, describes and repairs recordings.
 Wireshark opens recordings by a plugin.
END
packed python3-bpfrec all python << END
Depends: python3 (>= 3.9)
Suggests: bpfrec, python3-scapy, python3-pandas
Description: frames of bpfrec's recordings in Python
 Reads recordings and whole Chapter 11 files of the recorder bpfrec: frames by
 channel and time, filters and their changes, ends, facts and damaged places.
END
