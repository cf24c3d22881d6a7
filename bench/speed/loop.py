def main():
    n, i = 0, 1
    while i <= 1000:
        j = 1
        while j <= 2000:
            n = n + 1
            j = j + 1
        i = i + 1
    print(n)
main()
