# In how many ways an amount can be paid by coins of 50, 20, 10, 5, 2 and 1.
procedure
integer amount
for (amount = 1, amount <= 100, amount += amount)
    write( , amount:i(4), ways(amount):i(6))
write( , 100:i(4), ways(100):i(6))
end

integer procedure ways(amount)
integer amount, count, fifties, twenties, tens, fives
count = 0
do fifties = 0, amount, 50
    do twenties = fifties, amount, 20
        do tens = twenties, amount, 10
            do fives = tens, amount, 5
                # of what is left so many may be twos
                count += (amount - fives)/2 + 1
return(count)
end
