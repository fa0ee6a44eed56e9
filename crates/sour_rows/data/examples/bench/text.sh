#!/bin/sh
# Writes a text near the limit of 1,048,576 bytes: functions of 4,096 lines each. It has no inputs, so nothing
# runs. With a number it writes that many functions; 15 are as many as fit.
count=${1:-15}
awk -v count="$count" 'BEGIN {
    for (f = 0; f < count; f++) {
        print "fun " (f == 0 ? "main" : "f" f) "()"; print "ver base"
        print "var a = 1"; print "var b = a"
        for (i = 0; i < 1023; i++) {
            print "l" i ": branch a == b m" i " l" (i == 1022 ? 0 : i + 1)
            print "m" i ": a <- a + 1"; print "b <- b - a"; print "goto l" i
        }
        print "return a"; print "stop"; print "end"
    }
}'
