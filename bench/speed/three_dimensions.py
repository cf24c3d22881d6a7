def main():
    a = [[[0] * 21 for j in range(21)] for i in range(21)]
    for r in range(40):
        for i in range(1, 21):
            for j in range(1, 21):
                for k in range(1, 21):
                    a[i][j][k] = (a[i - 1][j][k] + a[i][j - 1][k] + a[i][j][k - 1] + 1) % 9973
    print(a[20][20][20])
main()
