#!/bin/sh
# Writes a text of straight code: 4,000 instructions, run on 4,096 inputs of one value each. With the
# word `lua` it writes the same work as a Lua program.
kind=${1:-sour}
awk -v kind="$kind" 'BEGIN {
    lua = (kind == "lua")
    if (lua) {
        print "local function main(a)"
        print "local b = a + 1"; print "local c = 0"; print "local d = 0"; print "local t = false"
    } else {
        print "fun main()"; print "ver base"
        print "read a"; print "var b = a + 1"; print "var c = 0"; print "var d = 0"; print "var t = false"
    }
    set = lua ? " = " : " <- "
    for (i = 0; i < 499; i++) {
        print "b" set "b + a"
        print "c" set "b * 3"
        print "d" set "c % 1000"
        print "b" set "d - a"
        print "t" set "d < 500"
        print "c" set (lua ? "c // 7" : "c / 7")
        print "t" set (lua ? "t and true" : "t && true")
        print "b" set "b + 2"
    }
    if (lua) {
        print "io.write(b, \"\\n\", tostring(t), \"\\n\")"; print "return c"; print "end"
        print "for i = 1, 4096 do io.write(\"input \", i, \"\\n\"); io.write(\"end \", main(i), \"\\n\") end"
    } else {
        print "print b"; print "print t"; print "return c"; print "end"; print "%inputs"
        for (i = 1; i <= 4096; i++) print "input " i
    }
}'
