#!/bin/sh
# Writes a text whose one input makes 3,000,000 frames, each above the other: four instructions a frame.
# There is no peer: Lua's stack has no room for so many.
cat <<'TEXT'
fun down(n)
ver base
branch n == 0 zero more
zero: return 0
more: var m = n - 1
call r = &down(m)
return r
end
fun main()
ver base
read n
call r = &down(n)
return r
end
%inputs
input 3000000
TEXT
