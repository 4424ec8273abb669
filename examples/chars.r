# Counts the lines, and the characters but for blanks at the ends of lines, up to a line that begins with a dollar sign.
define(width, 80)
define(blank, 32)
define(dollar, 36)
integer line(width), chars
lines = 0
chars = 0
repeat {
    read(5,8) line
    if (line(1) == dollar) break
    lines = lines + 1
    for (last = width; last > 1; last = last - 1)
        if (line(last) != blank) break
    if (line(last) == blank) last = 0
    chars = chars + last
}
write(6,9) lines, chars
8 format(80a1)
9 format(i6, ' lines', i8, ' characters')
stop
end
