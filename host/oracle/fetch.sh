#!/bin/bash
# Brings the crates that the originals need into vendor/, out of Debian's packages of Rust crates.
#
# Nothing is installed and nobody needs to be root: apt works on a state of its own, in a temporary
# directory, with the mirror, proxy and keys of this machine's apt configuration. The suite is
# trixie, since the num-traits of bookworm, 0.2.15, has no ToBytes and FromBytes.
#
# Does nothing where vendor/ is complete. Where the crates can't be had, says why in one line and
# ends with status 1.
set -u
cd "$(dirname "$0")" || exit 1

suite=trixie
crates="autocfg chrono libc log memmap2
    num num-complex num-integer num-iter num-rational num-traits"

fail() {
    echo "fetch: $1" >&2
    exit 1
}

complete() {
    local crate
    for crate in $crates; do
        compgen -G "vendor/$crate-[0-9]*/.cargo-checksum.json" > /dev/null || return 1
    done
}

# The first archive of Debian itself, not of its security updates or of somebody else.
mirror() {
    apt-get --print-uris update |
        sed -En "s#^'(.*)/dists/(bullseye|bookworm|trixie|forky|sid)/InRelease'.*#\1#p" | head -n 1
}

complete && exit 0
command -v apt-get > /dev/null || fail "there is no apt-get here"
mirror=$(mirror 2> /dev/null)
[ -n "$mirror" ] || fail "apt has no Debian archive in its configuration"

work=$(mktemp -d) || fail "no temporary directory"
trap 'rm -rf "$work"' EXIT
mkdir -p "$work"/{state/lists/partial,cache/archives/partial,packages,unpacked}
touch "$work/state/status"
# Debian's own keys, where they are not among those that apt trusts for every archive.
keys=$(compgen -G '/usr/share/keyrings/debian-archive-keyring.[gp]*' | head -n 1)
echo "deb ${keys:+[signed-by=$keys]} $mirror $suite main" > "$work/sources.list"
cat > "$work/apt.conf" << CONF
Dir::State "$work/state";
Dir::State::status "$work/state/status";
Dir::Cache "$work/cache";
Dir::Etc::sourcelist "$work/sources.list";
Dir::Etc::sourceparts "-";
APT::Sandbox::User "root";
APT::Update::Error-Mode "any";
Acquire::Retries "1";
Acquire::http::Timeout "20";
Acquire::https::Timeout "20";
CONF
export APT_CONFIG="$work/apt.conf"

apt-get -qq update > "$work/log" 2>&1 ||
    fail "$suite's list of packages can't be had: $(head -n 1 "$work/log")"
packages=$(printf 'librust-%s-dev ' $crates)
# shellcheck disable=SC2086 # a word for each package
(cd "$work/packages" && apt-get -qq download $packages) > "$work/log" 2>&1 ||
    fail "the packages can't be had: $(head -n 1 "$work/log")"
for package in "$work"/packages/*.deb; do
    dpkg-deb -x "$package" "$work/unpacked" || fail "$(basename "$package") can't be unpacked"
done
rm -rf vendor
cp -r "$work/unpacked/usr/share/cargo/registry" vendor
complete || fail "the packages lack a crate"
