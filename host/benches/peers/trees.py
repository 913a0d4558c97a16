"""The benchmark's algorithms over trees, driven by lines on standard input:
`load LABEL TASK TREE..` keeps arguments (prefix form, 1 a node, 0 a leaf); `run LABEL TURNS` answers a check of the value.
A leaf is None, a node a pair."""

import sys

sys.setrecursionlimit(100_000)


def ack(m, n):
    while m is not None:
        if n is None:
            m, n = m[1], (None, None)
        else:
            m, n = m[1], ack(m, n[1])
    return (None, n)


def less_or_equal(a, b):
    while a is not None:
        if b is None:
            return False
        a, b = a[1], b[1]
    return True


def insert(x, l):
    if l is None:
        return (x, None)
    if less_or_equal(x, l[0]):
        return (x, l)
    return (l[0], insert(x, l[1]))


def sort(l):
    return None if l is None else insert(l[0], sort(l[1]))


def mirror(t):
    return None if t is None else (mirror(t[1]), mirror(t[0]))


def reverse(l, acc):
    while l is not None:
        l, acc = l[1], (l[0], acc)
    return acc


def turn(a, b, c, d, e, f, g, h):
    while a is not None:
        a, b, c, d, e, f, g, h = b, c, d, e, f, g, h, a[1]
    return b


TASKS = {"ack": ack, "sort": sort, "mirror": mirror, "reverse": reverse, "turn": turn}


def parse(text):
    stack = []
    for byte in reversed(text):
        stack.append(None if byte == "0" else (stack.pop(), stack.pop()))
    return stack[0]


def check(tree):
    stack, total = [tree], 0
    while stack:
        t = stack.pop()
        if t is None:
            total = (total * 31 + 1) % 1_000_003
        else:
            total = (total * 31 + 2) % 1_000_003
            stack += (t[1], t[0])
    return total


def main():
    loaded = {}
    for line in sys.stdin:
        words = line.split()
        if words[0] == "load":
            loaded[words[1]] = TASKS[words[2]], [parse(text) for text in words[3:]]
        else:
            task, args = loaded[words[1]]
            value = None
            for _ in range(int(words[2])):
                value = task(*args)
            print(check(value), flush=True)


main()
