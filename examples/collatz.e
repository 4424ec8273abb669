# How many steps 27 takes to 1 by halving and by 3n+1, and the greatest number on the way.
procedure
integer number, steps, most
number = most = 27
for (steps = 0, number ~= 1, ++steps) {
    if (mod(number, 2) == 0) number /= 2
    else number = 3*number + 1
    most = max(most, number)
}
write( , steps:i(6))
write( , most:i(6))
end
