#!/bin/sh
# Writes a text with 2,000,000 assumptions that fail, run on one input: two versions of one function leave for
# each other, three instructions a round, of which two take a turn. There is no peer.
cat <<'TEXT'
fun main()
ver even
read n
top: branch n == 0 out on
on: n <- n - 1
assume n < 0 else main.odd.top [n = n]
goto top
out: return n
ver odd
read n
top: branch n == 0 out on
on: n <- n - 1
assume n < 0 else main.even.top [n = n]
goto top
out: return n
end
%inputs
input 2000000
TEXT
