def main():
    n = 91
    a = [[i + j for j in range(n)] for i in range(n)]
    b = [[i - j for j in range(n)] for i in range(n)]
    c = [[0] * n for i in range(n)]
    for i in range(1, n):
        for j in range(1, n):
            s = 0
            for k in range(1, n):
                s = s + a[i][k] * b[k][j]
            c[i][j] = s
    s = 0
    for i in range(1, n):
        s = s + c[i][91 - i]
    print(s)
main()
