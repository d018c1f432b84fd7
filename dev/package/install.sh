#!/usr/bin/env bash
# Installs the program and what stands around it, or removes it again; `make install` and `make uninstall` call it.
set -euo pipefail

usage='usage: PREFIX=.. DESTDIR=.. dev/package/install.sh [--uninstall]

Installs below PREFIX (/usr/local by default) the command in bin/bpfrec, and what it runs in libexec/bpfrec/: bin/bpfrec
and what else make build makes there, bin/capture, where it is built, and the tools in Python as one file. With them go
the manual pages, completions for bash, zsh and fish, examples and documents in share/doc/bpfrec/, a unit for systemd in
lib/systemd/system/, and the plugin for Wireshark in share/bpfrec/, with a link in the folder of plugins that tshark
names, or else in Debian'"'"'s. The Python package bpfrec goes into the folder below PREFIX in which the system'"'"'s Python
looks, or else into lib/python3/dist-packages. What stands in DESTDIR, if it is set, is put ahead of PREFIX. With
--uninstall all of it is removed, and the folders that only it has. ZSH names another folder than
share/zsh/site-functions, WIRESHARK another folder of plugins, and PYTHON_PACKAGES another one of Python'"'"'s packages,
below PREFIX.

Status: 0 done, 2 wrong arguments, 3 something to install is missing or not proved, else that of the command that
failed.'

cd "$(dirname "$0")/../.." || exit 3
# No mode of the caller's is in an installation.
umask 022
PREFIX=${PREFIX:-/usr/local} DESTDIR=${DESTDIR:-} ZSH=${ZSH:-share/zsh/site-functions}
to=$DESTDIR$PREFIX

# The folder below PREFIX in which Python looks for packages.
python_folder() {
    local found=${PYTHON_PACKAGES:-}
    [[ -n $found ]] || found=$(/usr/bin/python3 -I - "$PREFIX" 2> /dev/null << 'END'
import site, sys
prefix = sys.argv[1].rstrip("/") + "/"
print(next((it[len(prefix):] for it in site.getsitepackages() if it.startswith(prefix + "lib/")), ""))
END
    ) || true
    echo "${found:-lib/python3/dist-packages}"
}
python_packages=$(python_folder)

# Each file, as its mode, where it stands here or what it is made of, and where it goes.
files() {
    local file at
    echo "755 host/bin/bpfrec bin/bpfrec"
    echo "755 bin/bpfrec libexec/bpfrec/bpfrec"
    echo "755 bin/capture libexec/bpfrec/capture"
    echo "755 host/bpfrec_tools libexec/bpfrec/tool"
    for file in bin/man/*.1; do
        echo "644 $file share/man/man1/${file##*/}"
    done
    echo "644 dev/package/completions/bpfrec.bash share/bash-completion/completions/bpfrec"
    echo "644 dev/package/completions/_bpfrec $ZSH/_bpfrec"
    echo "644 dev/package/completions/bpfrec.fish share/fish/vendor_completions.d/bpfrec.fish"
    echo "644 bin/bpfrec.lua share/bpfrec/bpfrec.lua"
    find host/bpfrec -type f \( -name '*.py' -o -name py.typed \) | sort | while read -r file; do
        echo "644 $file $python_packages/${file#host/}"
    done
    find docs/user -type f | sort | while read -r file; do
        at=${file#docs/user/}
        echo "644 $file share/doc/bpfrec/${at/INSTALLED/README}"
    done
    find examples -type f ! -name bpfrec.service | sort | while read -r file; do
        echo "644 $file share/doc/bpfrec/$file"
    done
    echo "644 examples/bpfrec.service lib/systemd/system/bpfrec.service"
}

# The folder in which Wireshark looks for plugins of all users.
plugins() {
    local found=${WIRESHARK:-}
    [[ -n $found ]] || found=$(tshark -G folders 2> /dev/null | sed -n 's/^Global Lua Plugins:[[:space:]]*//p') || true
    echo "${found:-/usr/lib/$(uname -m)-linux-gnu/wireshark/plugins}"
}

# Links the plugin for Wireshark into that folder, where it may be written.
install_plugin() {
    local folder plugin=$to/share/bpfrec/bpfrec.lua
    folder=$DESTDIR$(plugins)
    [[ -d $folder ]] || install -d "$folder" 2> /dev/null || true
    if ! ln -sfn "$(realpath -m --relative-to="$folder" "$plugin")" "$folder/bpfrec.lua" 2> /dev/null; then
        echo "$folder can't be written, so Wireshark finds no recordings:" \
            "link $plugin into ~/.local/lib/wireshark/plugins"
    fi
}

# The modules of the Python package from before, and what Python compiled of them.
remove_modules() {
    rm -rf "$to/$python_packages/bpfrec"
}

# Whether a program was built from its proof, which the compiler notes in the section .comment.
is_proved() {
    tr '\0' '\n' < "$1" | LC_ALL=C grep -ax 'rattle logic=[0-9a-f]\{64\}' > /dev/null
}

# install_host MODE FILE: makes the file of the tools in Python
install_host() {
    if [[ ! -x /usr/bin/python3 ]]; then
        echo "/usr/bin/python3 is missing, so the tools aren't installed"
        return
    fi
    install -d "$(dirname "$2")"
    rm -f "$2"
    dev/package/make_host.py "$2"
    chmod "$1" "$2"
}

install_all() {
    local mode from at
    if [[ ! -x bin/bpfrec ]]; then
        echo "bin/bpfrec is missing: make build makes it" >&2
        exit 3
    elif ! is_proved bin/bpfrec; then
        echo "bin/bpfrec wasn't built from its proof, so it isn't installed: make build makes one that was" >&2
        exit 3
    elif [[ ! -f bin/man/bpfrec.1 ]]; then
        echo "bin/man/bpfrec.1 is missing: make texts makes the manual pages and the plugin" >&2
        exit 3
    fi
    remove_modules
    while read -r mode from at; do
        if [[ $from == bin/capture && ! -x $from ]]; then
            echo "bin/capture isn't built, so it isn't installed, and bpfrec live can't record interfaces"
        elif [[ $from == host/bpfrec_tools ]]; then
            install_host "$mode" "$to/$at"
        else
            install -D -m "$mode" "$from" "$to/$at"
        fi
    done < <(files)
    # The unit runs what is installed, and its settings name the installed listings by whole paths.
    sed -i -e "s|/opt/bpfrec/host/bin/|$PREFIX/bin/|" -e '/^# It takes the repository at/d' \
        -e "s|examples/wire.toml|$PREFIX/share/doc/bpfrec/&|" "$to/lib/systemd/system/bpfrec.service"
    sed -i "s|\"examples/|\"$PREFIX/share/doc/bpfrec/examples/|" "$to/share/doc/bpfrec/examples/wire.toml"
    install_names
    install_plugin
}

# The installed documents name the installed commands and folders.
install_names() {
    local file work
    work="in a folder with \`examples\`, a copy of $PREFIX/share/doc/bpfrec/examples, and an empty \`bin\`"
    for file in "$to"/share/doc/bpfrec/{*,formats/*,using/*}.md; do
        sed -i '/^<!-- source tree -->$/,/^<!-- end -->$/d; s/<!--[A-Z_]*-->//g; /^<!-- .* -->$/d; s| (`bench/RESULTS.md`)||g' "$file"
        sed -i "s|bin/capture\b|$PREFIX/libexec/bpfrec/capture|g" "$file"
        sed -i "s|bin/bpfrec.lua|$PREFIX/share/bpfrec/bpfrec.lua|g" "$file"
        sed -Ei -e "s#(^|[^/[:alnum:]])bin/(bpfrec)([^-_/.[:alnum:]]|\$)#\\1\\2\\3#g" -e 's#docs/user/##g' "$file"
        sed -i -e "s|/usr/local/share/|$PREFIX/share/|g" \
            -e "s|examples/bpfrec.service|$PREFIX/lib/systemd/system/bpfrec.service|g" \
            -e "s|/usr/local/libexec/|$PREFIX/libexec/|g" \
            -e "s|at the top of the repository after \`make build\`,|$work,|" "$file"
    done
}

uninstall_all() {
    local mode from at
    remove_modules
    while read -r mode from at; do
        rm -f "$to/$at"
    done < <(files)
    at=$DESTDIR$(plugins)/bpfrec.lua
    [[ ! -L $at ]] || rm -f "$at"
    for at in share/doc/bpfrec/examples/{filters,feeds} share/doc/bpfrec/{examples,formats,using} share/doc/bpfrec \
        share/bpfrec libexec/bpfrec; do
        [[ ! -d $to/$at ]] || rmdir --ignore-fail-on-non-empty "$to/$at"
    done
}

case ${*:-} in
    '') install_all ;;
    --uninstall) uninstall_all ;;
    -h | --help) echo "$usage" ;;
    *) echo "$usage" >&2; exit 2 ;;
esac
