def main():
    a = [i * 7919 % 1009 for i in range(1001)]
    for i in range(1, 1000):
        for j in range(1, 1001 - i):
            if a[j] > a[j + 1]:
                t = a[j]
                a[j] = a[j + 1]
                a[j + 1] = t
    print(a[1], a[200], a[400])
main()
