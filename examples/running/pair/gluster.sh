#!/bin/sh
# gluster.sh VOLUME, on one machine, before the volume is started: the settings that a hall needs. docs/SECOND.md tells
# of it.
set -eu
# Without strict locks a machine that was cut off writes again, once it is back, into files that another one serves by
# then: answers that were told are lost, and `hall check` finds the rest sane. Two of the three copies agree on each
# write. Who is silent for 5 seconds is gone, and its lock with it. Nothing is held back or answered from memory.
gluster --mode=script volume set "${1:?VOLUME}" \
    client.strict-locks on \
    cluster.quorum-type auto \
    network.ping-timeout 5 \
    client.tcp-user-timeout 5 \
    server.tcp-user-timeout 5 \
    client.keepalive-time 2 \
    client.keepalive-interval 1 \
    client.keepalive-count 3 \
    server.keepalive-time 2 \
    server.keepalive-interval 1 \
    server.keepalive-count 3 \
    performance.write-behind off \
    performance.open-behind off \
    performance.quick-read off \
    performance.read-ahead off \
    performance.io-cache off \
    performance.stat-prefetch off
