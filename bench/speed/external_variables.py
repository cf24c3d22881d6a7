t, total = [0] * 101, 0
def main():
    global total
    for k in range(1, 4001):
        for i in range(1, 101):
            t[i] = t[i] + i * k % 7
            total = (total + t[i]) % 99991
    print(total)
main()
