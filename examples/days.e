# The days of February and of the whole year, for 1900 and 2000.
procedure
integer year, month, days, total
do year = 1900, 2000, 100 {
    total = 0
    do month = 1, 12 {
        switch (month) {
            case 4, 6, 9, 11: days = 30
            case 2:
                days = february(year)
                write( , days:i(5))
            default: days = 31
        }
        total += days
    }
    write( , total:i(5))
}
end

# the days of a year's February
integer procedure february(year)
integer year
if (mod(year, 4) == 0 & (mod(year, 100) ~= 0 | mod(year, 400) == 0)) return(29)
return(28)
end
