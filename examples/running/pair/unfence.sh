#!/bin/sh
# hall-unfence, which DRBD runs on a machine that is brought up to date: `before`, and `after`, when both have all again
# and the witness forgets who was alone. It forgets only what it knew before: where the other machine lost this one
# meanwhile, and wrote its name anew, that stays. Ends with 0, since DRBD takes anything else for a no.
set -u
# shellcheck source=/dev/null
. "${HALL_PAIR:-/etc/default/hall-pair}"
known=${HALL_KNOWN:-/run/hall-unfence}

witness() {
    ETCDCTL_API=3 etcdctl --endpoints="$WITNESS" --dial-timeout=2s --command-timeout=3s "$@" 2>/dev/null
}

case $1 in
before) witness get hall --write-out=fields | sed -n 's/^"ModRevision" : //p' >"$known" ;;
after)
    revision=$(cat "$known" 2>/dev/null)
    [ -z "$revision" ] || printf 'mod("hall") = "%s"\n\ndel hall\n\n\n' "$revision" | witness txn >/dev/null
    ;;
esac
exit 0
