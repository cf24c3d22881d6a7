def main():
    a = b = c = d = e = 0
    for i in range(1, 600001):
        x = i * 31 % 100
        if x < 10:
            a = a + 1
        elif x < 30:
            b = b + 1
        elif x < 60:
            c = c + 1
        elif x < 90:
            d = d + 1
        else:
            e = e + x
    print(a, b, c, d, e)
main()
