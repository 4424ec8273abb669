# Copies lines of at most 72 characters, up to a line that begins with a dollar sign.
define(width, 72)
define(dollar, 36)
integer line(width)
repeat {
    read(5,9) line
    if (line(1) == dollar) break
    write(6,9) line
}
9 format(72a1)
stop
end
