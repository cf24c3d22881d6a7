class Point:
    __slots__ = ('x', 'y')
class Entry:
    __slots__ = ('number', 'name')
def main():
    area = {}
    s = 0
    for i in range(1, 25001):
        area['p'] = Point()
        area['q'] = Entry()
        area['r'] = [0] * 12
        area['t'] = bytearray(100)
        s = s + 1
        del area['q']
        del area['p']
        del area['t']
        del area['r']
    print(s)
main()
