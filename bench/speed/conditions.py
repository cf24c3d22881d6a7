def main():
    n, x, z = 0, 0, 0
    for i in range(1, 200001):
        try:
            quotient = i // z
        except ZeroDivisionError:
            n = n + 1
            quotient = 0
        x = x + quotient + 1
    print(x, n)
main()
