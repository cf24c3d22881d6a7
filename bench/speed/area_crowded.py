class Point:
    __slots__ = ('x', 'y')
def main():
    pointers = [Point() for _ in range(4000)]
    s = 0
    for j in range(1, 26):
        for i in range(4000):
            pointers[i] = None
            pointers[i] = Point()
            s = s + 1
    print(s)
main()
