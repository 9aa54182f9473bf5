#!/bin/sh
# Copies the two files of a hall to a folder each second, also while it serves, without opening them.
#
#     ship.sh FILE FOLDER        FOLDER may be HOST:FOLDER, which ssh and rsync reach without a password
#
# In FOLDER the link `now` names the last whole copy, `1` or `2`; the next one is made in the other. What was answered
# in the last seconds isn't there. docs/RUNNING.md tells why a copy that is made so is whole.
set -u
file=${1:?FILE} place=${2:?FOLDER}
name=$(basename "$file")
umask 077
reach='ssh -o BatchMode=yes -o ConnectTimeout=5 -o ServerAliveInterval=2'

# The head of a log: none, or it begins with 7, and is another one after the log was emptied into the file.
head_of() {
    head -c 32 "$1" 2>/dev/null | od -A n -t x1 -v | tr -d ' \n'
}

# Runs a command in the folder.
there() {
    case $place in
    *:*) $reach "${place%%:*}" "cd '${place#*:}' && $1" ;;
    *) (cd "$place" && sh -c "$1") ;;
    esac
}

# First the file, then the log, as rsync orders them. What the file lacks is in the log, as long as that wasn't emptied
# meanwhile. Their times may say nothing: several changes fall into one tick of the clock.
copies() {
    before=$(head_of "$file-wal")
    case $before in '' | 377f068?*) ;; *) return 1 ;; esac
    rsync --archive --ignore-times --inplace --no-whole-file --delete --timeout=10 --rsh="$reach" \
        --include="/$name" --include="/$name-wal" --exclude='*' "$(dirname "$file")/" "$place/$1/" || return 1
    [ "$(head_of "$file-wal")" = "$before" ] && there "sync -f $1 && ln -sfn $1 next && mv -T next now"
}

turn=
failed=0
while :; do
    # The copy that `now` names stays until the next one is whole.
    [ -n "$turn" ] || ! named=$(there 'mkdir -p 1 2 && { readlink now || echo 2; }') || turn=$((3 - named))
    if [ -n "$turn" ] && copies "$turn"; then
        turn=$((3 - turn))
        [ "$failed" -lt 10 ] || echo "ship.sh: $file is copied again" >&2
        failed=0
    else
        failed=$((failed + 1))
        [ "$failed" -ne 10 ] || echo "ship.sh: no copy of $file in the last ten tries" >&2
    fi
    sleep 1
done
