# What each measure begins with: the built program, and a folder for its work. To be sourced.
set -eu
cd "$(dirname "${BASH_SOURCE[0]}")/.."
program=build/syclrun
[ -x "$program" ] || ./syclrun serial </dev/null >/dev/null 2>&1 || true
work=$(mktemp -d)
trap 'rm -rf "$work"' EXIT
