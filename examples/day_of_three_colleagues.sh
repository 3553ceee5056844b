#!/usr/bin/env bash
# A day of three colleagues. A broker sends first_trade.fix. Alice allocates its fill, Bert asks what became of it, and Carol withdraws
# what Alice did. Each line is printed behind the name of who says it, and then its answer, with spaces for tabs; at last the report.
#
#   examples/day_of_three_colleagues.sh
#
# BLOTTER is the program, by default ./blotter of the repository or else the one that is installed; PORT is the port, by default 9878.
set -euo pipefail

here=$(cd "$(dirname "${BASH_SOURCE[0]}")" && pwd)
program=${BLOTTER:-$here/../blotter}
[[ -x $program ]] || program=blotter
port=${PORT:-9878}
room=$(mktemp -d)
trap 'kill "$server" 2> /dev/null || true; rm -rf "$room"' EXIT

say() {
    echo "$1> $2"
    echo "$2" | "$program" ask "$room/desk.socket" --name "$1" | tr '\t' ' '
}

"$program" serve --own MO --day 20240105 --port "$port" --operators "$room/desk.socket" BRKA > "$room/report" 2> "$room/log" &
server=$!
until [[ -S $room/desk.socket ]]; do
    kill -0 "$server" 2> /dev/null || { cat "$room/log" >&2; exit 1; }
    sleep 0.1
done

# The broker: it sends its Logon and its fill, and stays until both are taken.
exec 3<> "/dev/tcp/127.0.0.1/$port"
cat "$here/first_trade.fix" >&3
until say alice sessions | grep -q 'BRKA on 3'; do
    sleep 0.1
done
exec 3>&-

say alice 'allocate BRKA AL1 XYZ B 20240105 10.5 1 E1 A 60 B 40'
say bert 'position A XYZ'
say carol 'withdraw 1'
say carol 'withdraw 2'
say bert 'steps 3'
say bert 'refusals 1'
say alice mine
say alice 'allocate BRKA AL2 XYZ B 20240105 10.5 1 E1 A 50 B 50'
say carol close
wait "$server"
tr '\t' ' ' < "$room/report"
