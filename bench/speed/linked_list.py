class Node:
    __slots__ = ('number', 'next')
def main():
    first = None
    for i in range(1, 20001):
        p = Node()
        p.number = i
        p.next = first
        first = p
    for j in range(1, 21):
        s = j
        p = first
        while p is not None:
            s = s + p.number
            p = p.next
    print(s)
main()
