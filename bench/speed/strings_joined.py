def main():
    n = 0
    for i in range(3000):
        s, t = '', 'X'
        for j in range(60):
            s = s + t[0:1] + 'YZ'
            if len(s) > 100:
                s = s[50:]
            t = s[len(s) - 1:] + t
            if len(t) > 40:
                t = 'X'
        n = n + len(s) + len(t)
    print(n)
main()
