def main():
    most = 0
    for i in range(1, 8001):
        x, n = i, 0
        while (x != 1) & (n < 1000) & (x < 50000000):
            if x % 2 == 0:
                x = x // 2
            else:
                x = 3 * x + 1
            n = n + 1
        if n > most:
            most = n
    print(most)
main()
