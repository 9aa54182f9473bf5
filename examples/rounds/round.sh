#!/bin/bash
# The round of README.md, "A round in ten minutes": its commands against a server on a free port of 127.0.0.1, each reply
# compared with what README.md tells. The moments are the system's, so the round begins a few seconds after now; it ends
# a minute later, and is closed after one more.
# HALL names another program than ./hall.
# With the words PORT URL [OPTION..] the server listens on that port, and curl is asked at the URL with these options:
# tools/tests/test_proxies.py has a proxy there.
cd "$(dirname "${BASH_SOURCE[0]}")/../.." || exit 1
room=$(mktemp -d)
hall=${HALL:-./hall}
port=${1:-$(python3 -c 'import socket; s = socket.socket(); s.bind(("127.0.0.1", 0)); print(s.getsockname()[1])')}
url=${2:-http://127.0.0.1:$port}
options=("${@:3}")
failed=0

finish() {
  [ -n "$server" ] && kill "$server" 2>/dev/null
  rm -rf "$room"
}
trap finish EXIT

# is NAME WANT GOT
is() {
  if [ "$3" != "$2" ]; then
    failed=$((failed + 1))
    printf 'FAILED a round, %s: got %s, wanted %s\n' "$1" "$3" "$2"
  fi
}

# ask KEY METHOD PATH [BODY]: the reply's body
ask() {
  curl --silent --show-error --max-time 20 "${options[@]}" --header "Hall-Key: $1" --request "$2" "$url$3" ${4:+--data-binary "$4"}
}

# until_moment SECONDS
until_moment() {
  while [ "$(date +%s)" -lt "$1" ]; do sleep 0.2; done
}

is 'hall init' 'added 6' "$("$hall" init --db "$room/hall.db" --people examples/people.csv)"
"$hall" serve --db "$room/hall.db" --port "$port" --connections 15 &
server=$!
for _ in $(seq 600); do
  (exec 3<>"/dev/tcp/127.0.0.1/$port") 2>/dev/null && break
  sleep 0.1
done

is 'a puzzle is put' '{"state":"new","text":"sudoku/4/4/123434122143432g"}' \
  "$(ask bob-key-1 PUT /puzzles/bob/p1 '{"text":"https://puzz.link/p?sudoku/4/4/123434122143432g"}')"
is 'a puzzle is certified' '{"state":"one"}' "$(ask bob-key-1 POST /puzzles/bob/p1/certificate '{"budget":200000}')"
start=$(($(date +%s) + 6))
sheet="version = 1
title = \"Noon\"
start = \"$(date --utc --date="@$start" +%Y-%m-%dT%H:%M:%SZ)\"
minutes = 1
protest_minutes = 1
mode = \"instant\"
penalty = 5
bonus = 2
[[puzzle]]
author = \"bob\"
label = \"p1\"
points = 40
"
is 'a draft is put' '{"round":"noon"}' "$(ask dora-key PUT /rounds/noon "$sheet")"
is 'a draft is released' '{"released":"noon"}' "$(ask dora-key POST /rounds/noon/release)"
is 'a round before its start' '{"denied":7}' "$(ask eve-key-1 GET /rounds/noon)"
until_moment "$start"
is 'a round is read' \
  "{\"bonus\":2,\"id\":\"noon\",\"minutes\":1,\"mode\":\"instant\",\"penalty\":5,\"protest_minutes\":1,\"puzzles\":[{\"number\":1,\"points\":40,\"text\":\"sudoku/4/4/123434122143432g\"}],\"start\":$start,\"title\":\"Noon\"}" \
  "$(ask eve-key-1 GET /rounds/noon)"
# A whole minute before the end would give the bonus.
until_moment $((start + 1))
is 'a wrong answer' '{"received":1,"verdict":"wrong U2 U4"}' "$(ask eve-key-1 PUT /rounds/noon/answers/1/first '{"answer":"1234341221434312"}')"
is 'a right answer' '{"received":2,"verdict":"right"}' "$(ask eve-key-1 PUT /rounds/noon/answers/1/second '{"answer":"1234341221434321"}')"
is 'an answer sent again' '{"received":2,"verdict":"right"}' "$(ask eve-key-1 PUT /rounds/noon/answers/1/second '{"answer":"1234341221434321"}')"
is "another entrant's answer" '{"received":1,"verdict":"right"}' "$(ask fay-key-1 PUT /rounds/noon/answers/1/mine '{"answer":"1234341221434321"}')"
until_moment $((start + 60))
is 'a protest' '{"protest":"why"}' "$(ask eve-key-1 PUT /rounds/noon/protests/why '{"number":1,"text":"The third row is unclear."}')"
is 'a ruling' '{"points":3,"ruled":"upheld"}' "$(ask rex-key-1 PUT /rounds/noon/rulings/eve/why '{"points":3,"upheld":true}')"
until_moment $((start + 120))
is 'a round is published' '{"published":"noon"}' "$(ask dora-key POST /rounds/noon/publish)"
table='   1 fay                            40
   2 eve                            38'
is 'the table' "$table" "$(ask nobody GET /rounds/noon/table)"
wait "$server"
is 'hall serve' 0 $?
server=
is 'hall table' "$table" "$("$hall" table --db "$room/hall.db" --round noon)"
[ "$failed" -eq 0 ] && echo "a round from init to table: all replies as README.md tells"
[ "$failed" -eq 0 ]
