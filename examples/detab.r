# Replaces each tab by the blanks that lead to the next stop, one behind each eight columns. No record can hold a tab, so a
# greater-than sign stands for one. Ends at a line that begins with a dollar sign.
define(width, 72)
define(tab, 62)
define(blank, 32)
define(dollar, 36)
integer line(width), out(width), col
repeat {
    read(5,9) line
    if (line(1) == dollar) break
    col = 0
    do i = 1, width
        if (line(i) == tab)
            repeat {
                if (col == width) break
                col = col + 1
                out(col) = blank
            } until (mod(col, 8) == 0)
        else if (col < width) {
            col = col + 1
            out(col) = line(i)
        }
    write(6,9) (out(i), i = 1, col)
}
9 format(72a1)
stop
end
