#!/bin/sh
# Writes a text with a tight loop: 2,000,000 rounds of four instructions, of which two take a turn, run on
# one input. With the word `lua` it writes the same work as a Lua program.
if [ "${1:-sour}" = lua ]; then
    cat <<'LUA'
local function main(n)
local s = 0
::loop:: if n == 0 then goto done else goto more end
::more:: s = s + n
n = n - 1
goto loop
::done:: return s
end
io.write("input 1\n"); io.write("end ", main(2000000), "\n")
LUA
else
    cat <<'TEXT'
fun main()
ver base
read n
var s = 0
loop: branch n == 0 done more
more: s <- s + n
n <- n - 1
goto loop
done: return s
end
%inputs
input 2000000
TEXT
fi
