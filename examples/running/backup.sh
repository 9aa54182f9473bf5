#!/bin/sh
# Copies a hall's database, also while the hall serves it, opens the copy, and writes the line of the hall that did.
#
#     backup.sh FILE FOLDER [HALL]
#
# FOLDER is made, and must not be there yet. HALL is the program, by default the one that stands where it was installed
# by hand, or that of the package. Ends with 1 where there is no whole copy. docs/RUNNING.md tells why it is whole.
set -u
file=${1:?FILE} folder=${2:?FOLDER}
# cron's path has no /usr/local/bin.
PATH=/usr/local/bin:$PATH
hall=$(command -v "${3:-hall}") || hall=
umask 077
copy=$folder/$(basename "$file")

fails() {
    echo "backup.sh: $1" >&2
    exit 1
}

# The head of a log: it begins with 7, and is another one after the log was emptied into the file.
head_of() {
    head -c 32 "$1" 2>/dev/null | od -A n -t x1 -v | tr -d ' \n'
}

# First the file, then the log. What the file lacks is in the log, as long as that wasn't emptied meanwhile.
copies() {
    before=$(head_of "$file-wal") || return 1
    case $before in 377f068?*) ;; *) return 1 ;; esac
    cp "$file" "$copy" && cp "$file-wal" "$copy-wal" || return 1
    [ "$(head_of "$copy-wal")" = "$before" ] && [ "$(head_of "$file-wal")" = "$before" ]
}

# A hall opens the copy on this port, and is ended once it tells of it.
opens_at() {
    "$hall" serve --db "$copy" --port "$1" 2>"$folder/told" &
    server=$!
    for _ in $(seq 6000); do
        if ! kill -0 "$server" 2>/dev/null || grep -q '^hall: serving' "$folder/told"; then
            break
        fi
        sleep 0.1
    done
    kill "$server" 2>/dev/null
    wait "$server" 2>/dev/null
}

# The line of a hall that opened the copy: people and rounds. Another program may have the first port.
opens() {
    for port in $((20000 + $$ % 4000)) $((24000 + $$ % 4000)) $((28000 + $$ % 4000)); do
        opens_at "$port"
        grep -q "port can't be listened on" "$folder/told" || break
    done
    grep '^hall: serving .*people' "$folder/told"
}

[ -f "$file" ] || fails "there is no $file"
[ -n "$hall" ] || fails "there is no program ${3:-hall} to open the copy: name it as the third word"
mkdir "$folder" || fails "$folder can't be made"
for try in 1 2 3 4 5 6 7 8 9 10 11 12 13 14 15 16 17 18 19 20; do
    if copies; then
        sync -- "$copy" "$copy-wal" "$folder"
        opens && rm "$folder/told" && exit 0
        cat "$folder/told" >&2
        fails "the copy in $folder doesn't open"
    fi
    sleep 0.1
done
fails "no copy in $try tries: the log was emptied each time, or isn't there (where nothing serves the file, use cp)"
