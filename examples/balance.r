# Looks for a line whose parentheses don't match, and stops with 1 where there is one. A dollar sign ends the text.
define(OPEN, 40)
define(CLOSE, 41)
define(DOLLAR, 36)
integer line(40), k, depth
repeat {
    read(5,9) line
    if (line(1) == DOLLAR) break
    depth = 0
    for (k = 1; k <= 40 & depth >= 0; k = k + 1)
        if (line(k) == OPEN) depth = depth + 1
        else if (line(k) == CLOSE) depth = depth - 1
    if (depth != 0) {
        write(6,9) line
        stop 1
    }
}
9 format(40a1)
end
