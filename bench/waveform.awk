# Writes a waveform of at least `size` bytes: a clock, 48 signals of one bit and 16 of 16 bits. In each cycle one of
# each four signals changes. It is the same on every machine.
function draw() { seed = (seed * 16807) % 2147483647; return seed }
function put(line) { print line; bytes += length(line) + 1 }
BEGIN {
    seed = 1
    split("0000 0001 0010 0011 0100 0101 0110 0111 1000 1001 1010 1011 1100 1101 1110 1111", nibble, " ")
    put("$timescale 1ns $end")
    put("$scope module bench $end")
    put("$var wire 1 ! clk $end")
    for (i = 0; i < 64; i++) id[i] = sprintf("%c", 35 + i)
    for (i = 0; i < 48; i++) put("$var wire 1 " id[i] " s" i " $end")
    for (i = 48; i < 64; i++) put("$var wire 16 " id[i] " v" i - 48 " [15:0] $end")
    put("$upscope $end")
    put("$enddefinitions $end")
    put("#0")
    put("$dumpvars")
    put("0!")
    for (i = 0; i < 48; i++) put("0" id[i])
    for (i = 48; i < 64; i++) put("b0 " id[i])
    put("$end")
    for (time = 5; bytes < size; time += 10) {
        put("#" time)
        put("1!")
        for (i = 0; i < 64; i += 4) {
            picked = draw()
            place = i + picked % 4
            if (i < 48) {
                bit[place] = 1 - bit[place]
                put(bit[place] id[place])
            } else {
                four = nibble[1 + int(picked / 4) % 16] nibble[1 + int(picked / 64) % 16] \
                    nibble[1 + int(picked / 1024) % 16] nibble[1 + int(picked / 16384) % 16]
                sub(/^0+/, "", four)
                put("b" (four == "" ? "0" : four) " " id[place])
            }
        }
        put("#" time + 5)
        put("0!")
    }
}
