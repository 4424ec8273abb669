# The Sundays of Easter in the years that are read, up to a year of zero (Meeus, Jones and Butcher).
procedure
integer year, day, day_of_month
repeat {
    read( , year:i(4))
    if (year == 0) return
    day = day_of_march(year)
    if (day <= 31)
        write( , year:i(4), ':', day:i(3), ' March')
    else {
        day_of_month = day - 31
        write( , year:i(4), ':', day_of_month:i(3), ' April')
    }
}
end

# the day of Easter, counted on from the first of March
integer procedure day_of_march(year)
implicit (a-z) integer
golden = mod(year, 19)
century = year/100
rest = mod(year, 100)
correction = (century - (century + 8)/25 + 1)/3
epact = mod(19*golden + century - century/4 - correction + 15, 30)
weekday = mod(32 + 2*mod(century, 4) + 2*(rest/4) - epact - mod(rest, 4), 7)
late = (golden + 11*epact + 22*weekday)/451
return(22 + epact + weekday - 7*late)
end
