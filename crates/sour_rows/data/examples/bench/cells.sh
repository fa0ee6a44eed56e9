#!/bin/sh
# Writes a text that makes an array of 2,000,000 cells, writes each and adds them up: four instructions a
# cell to write and six to read. With the word `lua` it writes the same work as a Lua program.
if [ "${1:-sour}" = lua ]; then
    cat <<'LUA'
local function main(n)
local a = {}
local i = 0
::fill:: if i == n then goto sum else goto put end
::put:: a[i] = i
i = i + 1
goto fill
::sum:: local s = 0
i = 0
::loop:: if i == n then goto done else goto more end
::more:: s = s + a[i]
i = i + 1
goto loop
::done:: return s
end
io.write("input 1\n"); io.write("end ", main(2000000), "\n")
LUA
else
    cat <<'TEXT'
fun main()
ver base
read n
array a[n]
var i = 0
fill: branch i == n sum put
put: a[i] <- i
i <- i + 1
goto fill
sum: var s = 0
i <- 0
loop: branch i == n done more
more: var x = a[i]
s <- s + x
drop x
i <- i + 1
goto loop
done: return s
end
%inputs
input 2000000
TEXT
fi
