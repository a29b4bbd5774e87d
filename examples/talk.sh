#!/usr/bin/env bash
# Talks to the heap whose file is named: says a line, and reads its reply before it says the next one.
coproc talk { romulus_talk "$1"; }
pid=$talk_PID
ask() { echo "$1" >&"${talk[1]}" && read -r reply <&"${talk[0]}"; }

ask 'put 1 100' && echo "$reply"
ask 'get 1' && read -r _ value _ <<<"$reply"
ask "put 1 $((value + 5))" && echo "$reply"
ask 'get 1' && echo "$reply"
exec {talk[1]}>&- # the end of the talk
wait "$pid"
