#!/bin/sh
# hall-fence, which DRBD runs on a machine that no longer sees the other: may this one go on alone? The witness, etcd on
# a third machine, keeps one name. Who finds none there writes its own, and may. Who finds the other's may not: its own
# bytes are older. While the witness can't be reached, nothing is written. Ends with 7 (go on) or 1 (don't).
set -u
# WITNESS, as http://192.0.2.3:2379
# shellcheck source=/dev/null
. "${HALL_PAIR:-/etc/default/hall-pair}"
me=$(hostname)

# Writes this machine's name at the witness where the condition holds.
writes_if() {
    printf '%s\n\nput hall "%s"\n\n\n' "$1" "$me" |
        ETCDCTL_API=3 etcdctl --endpoints="$WITNESS" --dial-timeout=2s --command-timeout=3s txn 2>/dev/null
}

while :; do
    case $(writes_if 'create("hall") = "0"') in
    SUCCESS*) exit 7 ;;
    FAILURE*)
        # Its own name is written anew, so that a hall-unfence that is still under way leaves it.
        case $(writes_if "value(\"hall\") = \"$me\"") in
        SUCCESS*) exit 7 ;;
        FAILURE*) exit 1 ;;
        esac
        ;;
    esac
    sleep 1
done
