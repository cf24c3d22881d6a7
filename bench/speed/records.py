class Record:
    __slots__ = ('key', 'text', 'count')
def main():
    r = [Record() for i in range(101)]
    for i in range(1, 101):
        r[i].key = i * 37 % 101
        r[i].text = 'RECORD'
        r[i].count = 0
    for j in range(1, 5001):
        k = j * 13 % 101
        for i in range(1, 101):
            if r[i].key == k:
                r[i].count = r[i].count + 1
    s = 0
    for i in range(1, 101):
        if r[i].text == 'RECORD':
            s = s + r[i].count * r[i].key
    print(s)
main()
