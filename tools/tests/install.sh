#!/bin/bash
# Installs the Debian packages that the tests need, where that may be done: by root, with apt-get. Elsewhere it prints
# the line that installs them. A test whose programs aren't there is skipped.
#   tools/tests/install.sh
# Run by ./check.
NEEDED=(python3-pytest python3-pytest-xdist gcc libc6-dev git curl openssl iproute2 haproxy nginx-light chromium
  chromium-driver python3-selenium nodejs python3-jsonschema sqlite3 firefox-esr webkit2gtk-driver xvfb lintian man-db
  nftables strace systemd shellcheck)
HOW=(-o DPkg::Lock::Timeout=120 install -y --no-install-recommends)
# So many seconds fetching may take, and so many go by between two lines.
MOST=900
EVERY=15

say() { echo "check: $*"; }

# Those that aren't installed, a line each.
lacking() {
  local there
  there=$(dpkg-query --show --showformat='${db:Status-Status} ${Package}\n' "${NEEDED[@]}" 2>/dev/null)
  for package in "${NEEDED[@]}"; do
    grep -qx "installed $package" <<<"$there" || echo "$package"
  done
}

# Installs these, once another apt-get has ended. It isn't stopped but while it fetches them.
install() {
  [ "$SECONDS" -lt "$MOST" ] &&
    timeout "$((MOST - SECONDS))" apt-get --download-only "${HOW[@]}" "$@" && apt-get "${HOW[@]}" "$@"
}

# One that this release doesn't have leaves the others.
install_all() {
  export DEBIAN_FRONTEND=noninteractive
  timeout 120 apt-get update -qq
  install "$@" || for package; do install "$package"; done
}

# Installs these, and tells meanwhile how far it is.
install_and_tell() {
  local log
  log=$(mktemp)
  say "installing $# Debian packages for the tests: $*"
  install_all "$@" >"$log" 2>&1 </dev/null &
  until timeout "$EVERY" tail --pid=$! -f /dev/null; do
    say "installing, $SECONDS seconds: $(tail -n 1 "$log" | cut -c1-80)"
  done
  rm "$log"
}

mapfile -t needed < <(lacking)
if [ ${#needed[@]} -gt 0 ] && [ "$(id -u)" -eq 0 ] && command -v apt-get >/dev/null; then
  install_and_tell "${needed[@]}"
  mapfile -t needed < <(lacking)
fi
if [ ${#needed[@]} -gt 0 ]; then
  say "tests that need these Debian packages are skipped; as root, this line installs them:"
  echo "  apt-get update; apt-get install -y --no-install-recommends ${needed[*]}"
fi
