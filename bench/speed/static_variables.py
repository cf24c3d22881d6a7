calls, total, n = 0, 0, 0
def count(x):
    global calls, total, n
    calls = calls + 1
    total = (total + x) % 10007
    if calls == 300000:
        n = total
def main():
    for i in range(1, 300001):
        count(i)
    print(n)
main()
