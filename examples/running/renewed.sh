#!/bin/sh
# certbot runs this after each renewal, as /etc/letsencrypt/renewal-hooks/deploy/hall: it puts TLS certificate and key
# into the one file that HAProxy reads, and has HAProxy read it.
set -eu
umask 077
cat "$RENEWED_LINEAGE/fullchain.pem" "$RENEWED_LINEAGE/privkey.pem" >/etc/haproxy/hall.pem.new
mv /etc/haproxy/hall.pem.new /etc/haproxy/hall.pem
systemctl reload haproxy
