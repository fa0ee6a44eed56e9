#!/bin/sh
# Writes a text with 2,000,000 calls of a function of one parameter, run on one input: eight instructions a
# round, of which four take a turn. With the word `lua` it writes the same work as a Lua program.
if [ "${1:-sour}" = lua ]; then
    cat <<'LUA'
local function next_of(x)
local y = x + 1
return y
end
local function main(n)
local s = 0
::loop:: if n == 0 then goto done else goto more end
::more:: do local t = next_of(n)
s = s + t end
n = n - 1
goto loop
::done:: return s
end
io.write("input 1\n"); io.write("end ", main(2000000), "\n")
LUA
else
    cat <<'TEXT'
fun next_of(x)
ver base
var y = x + 1
return y
end
fun main()
ver base
read n
var s = 0
loop: branch n == 0 done more
more: call t = &next_of(n)
s <- s + t
drop t
n <- n - 1
goto loop
done: return s
end
%inputs
input 2000000
TEXT
fi
