# The powers of three, until one is above the greatest integer: that is a trap.
procedure
integer power
power = 1
repeat {
    write( , power:i(11))
    power *= 3
}
end
