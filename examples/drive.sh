#!/bin/sh
# Drives `cpgring shell` over two named pipes: one session, and what it is told, line by line as it comes.
# Usage: examples/drive.sh PROGRAM
room=$(mktemp -d) && mkfifo "$room/lines" "$room/answers" || exit 1
"$1" shell --nodes=1 --wait=10000 uid:7 <"$room/lines" >"$room/answers" 2>&1 &
exec 3>"$room/lines" 4<"$room/answers"

# types a line, and shows the line that it prints
say() {
    echo "$1" >&3
    read -r answer <&4
    echo "$1 -> $answer"
}

say 'connect 1 40 7 100'
say 'call 1 join db'
say 'wait 1'
say 'wait 1'
say 'wait 2'
exec 3>&-
wait $!
echo "status $?"
rm -r "$room"
