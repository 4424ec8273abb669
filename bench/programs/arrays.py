# nested loops over an array
def main():
    a = [[0] * 101 for _ in range(101)]
    for k in range(1, 101):
        for j in range(1, 101):
            row = a[j]
            for i in range(1, 101):
                row[i] = i * j + k
    print("%10d" % a[98][99])

main()
