# The days of February and of the whole year, for 1900 and 2000.
do iy = 1900, 2000, 100 {
	k = 0
	do m = 1, 12 {
		switch (m) {
			case 4, 6, 9, 11: n = 30
			case 2: {
				n = 28
				if (iy/4*4 == iy & (iy/100*100 != iy | iy/400*400 == iy))
					n = 29
				write(6,9) n
				}
			default: n = 31
			}
		k = k + n
		}
	write(6,9) k
	}
9 format(i5)
stop
end
