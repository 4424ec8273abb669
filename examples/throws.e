# How often a die shows each side in 600 throws, by a linear congruential sequence.
procedure
integer seed
seed = 1234
n1 = n2 = n3 = n4 = n5 = n6 = 0
do i = 1, 600
    switch (throw(seed, 6)) {
        case 1: ++n1
        case 2: ++n2
        case 3: ++n3
        case 4: ++n4
        case 5: ++n5
        default: ++n6
    }
write( , n1:i(4), n2:i(4), n3:i(4), n4:i(4), n5:i(4), n6:i(4))
end

# a number from 1 to so many sides; the seed goes on
integer procedure throw(seed, sides)
integer seed, sides
seed = mod(seed*421 + 1663, 7875)
return(mod(seed/13, sides) + 1)
end
