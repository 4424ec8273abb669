# How many numbers are read, up to a zero, and of each of their signs; the least and the greatest; their sum and their mean, rounded.
procedure
integer number, numbers, numbers_below, least, most, sum, mean
numbers = numbers_below = sum = 0
repeat {
    read( , number:i(10))
    if (number == 0) break
    if (numbers == 0) least = most = number
    least = min(least, number)
    most = max(most, number)
    sum += number
    ++numbers
    if (number < 0) ++numbers_below
}
write( , numbers:i(6), ' numbers,', numbers_below:i(6), ' below zero')
if (numbers > 0) {
    mean = (2*abs(sum) + numbers)/(2*numbers)
    write( , 'from', least:i(9), ' to', most:i(9))
    write( , 'sum', sum:i(10), ', mean', sign(mean, sum):i(9))
}
end
