# characters copied from one list to another
def main():
    a = [31 + i for i in range(81)]
    b = [0] * 81
    for k in range(20000):
        for i in range(1, 81):
            b[i] = a[i]
    print("".join(map(chr, b[1:])))

main()
