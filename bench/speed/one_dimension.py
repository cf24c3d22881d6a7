def main():
    a, s = [0] * 5001, 0
    for k in range(1, 21):
        for i in range(1, 5001):
            a[i] = (i * 37 + k) % 1009
        for i in range(1, 2501):
            t = a[i]
            a[i] = a[5001 - i]
            a[5001 - i] = t
        for i in range(2, 5001):
            a[i] = (a[i] + a[i - 1]) % 10007
        s = (s + a[5000]) % 10007
    print(s)
main()
