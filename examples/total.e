# Adds the numbers that are read, and writes what it has after each; that there is no more is a trap.
procedure
integer number, total
total = 0
repeat {
    read( , number:i(6))
    total += number
    write( , number:i(6), total:i(8))
}
end
