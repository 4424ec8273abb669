# Weekdays: for each day, month and year that is read, up to a day of zero, its day of the week, and how many days it is behind the
# one before.
procedure
integer day, month, year, number, number_before
logical is_first
is_first = true
repeat {
    read( , day:i(2), month:i(3), year:i(5))
    if (day == 0) break
    if (~is_day(day, month, year)) {
        write( , 'no day: ', day:i(2), month:i(3), year:i(5))
        next
    }
    number = days_before_year(year) + days_before_month(month, year) + day
    switch (mod(number, 7)) {
        case 0: write( , 'Sunday')
        case 1: write( , 'Monday')
        case 2: write( , 'Tuesday')
        case 3: write( , 'Wednesday')
        case 4: write( , 'Thursday')
        case 5: write( , 'Friday')
        case 6: write( , 'Saturday')
    }
    if (~is_first) write( , number - number_before:i(8), ' days')
    is_first = false
    number_before = number
}
end

# the days from the first of January of the year 1 on
integer procedure days_before_year(year)
integer year, years
years = year - 1
return(365*years + years/4 - years/100 + years/400)
end

integer procedure days_before_month(month, year)
integer month, year, days
days = (367*month - 362)/12
if (month > 2)
    if (is_leap(year)) --days
    else days -= 2
return(days)
end

logical procedure is_day(day, month, year)
integer day, month, year, next_month
if (day < 1 || month < 1 || month > 12 || year < 1) return(false)
if (month == 12) return(day <= 31)
next_month = month + 1
return(day <= days_before_month(next_month, year) - days_before_month(month, year))
end

logical procedure is_leap(year)
integer year
return(mod(year, 4) == 0 && mod(year, 100) ~= 0 || mod(year, 400) == 0)
end
