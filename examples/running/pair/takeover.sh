#!/bin/sh
# hall-takeover, which hall-pair.service runs on both machines: waits until this one may write the disk of the hall,
# mounts it, and starts the hall. It may not while it sees that the other one does, nor where hall-fence says no.
# `hall-takeover stop` gives the disk back.
set -u
if [ "${1:-}" = stop ]; then
    ! mountpoint -q /var/lib/hall || umount /var/lib/hall
    exec drbdadm secondary hall
fi
until drbdadm primary hall 2>/dev/null; do
    sleep 0.5
done
mount /dev/drbd0 /var/lib/hall && systemctl --no-block start hall && exec sleep infinity
