def main():
    d = 'QWERTYUIOPASDFGHJKLZXCVBNM'
    w = [''] * 121
    for r in range(1, 26):
        for i in range(1, 121):
            w[i] = (d[i * 7 % 26] + d[(i * 11 + r) % 26] + 'TAIL').ljust(12)
        for i in range(1, 120):
            k = i
            for j in range(i + 1, 121):
                if w[j] < w[k]:
                    k = j
            t = w[i]
            w[i] = w[k]
            w[k] = t
    print(w[1], w[60], w[120])
main()
