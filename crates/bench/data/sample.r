# A program of each layer's kind of work.
define limit 10
include part.r
n = 0
for (i = 1; i <= limit; i = i + 1)
	n = n + i
stop
end
