#!/usr/bin/env bash
# Installs Debian's packages of dev/package/packages.txt by name, for builds and trials; what is there stays as it is.
set -uo pipefail

usage='usage: dev/package/install_packages.sh

Installs what dev/package/packages.txt lists, by apt-get, as root. Status: 0 all is there, 1 something could not be
installed: the trials that need it say so.'

if [[ $# == 1 && ( $1 == -h || $1 == --help ) ]]; then
    echo "$usage"
    exit 0
elif [[ $# != 0 ]]; then
    echo "$usage" >&2
    exit 2
fi
cd "$(dirname "$0")/../.." || exit 3
mapfile -t packages < <(sed -n 's/^\([a-z0-9.+-]*\): .*/\1/p' dev/package/packages.txt)
missing=()
for package in "${packages[@]}"; do
    [[ $(dpkg-query -W -f '${Status}' "$package" 2> /dev/null) == *' installed' ]] || missing+=("$package")
done
[[ ${#missing[@]} != 0 ]] || exit 0
export DEBIAN_FRONTEND=noninteractive
apt-get -qq update && apt-get -qq install -y --no-install-recommends "${missing[@]}" > /dev/null || exit 1
