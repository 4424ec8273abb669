-- sums with a test
local k = 0
for i = 1, 2000000 do
  k = k + 1
  if k > 1000 then k = 0 end
end
print(string.format("%10d", k))
