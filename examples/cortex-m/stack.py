"""Adds up the stack that each function of the archive needs: its own frame, and the deepest of its calls. Stops at a
call whose callee isn't known, and at recursion.

usage: stack.py ASSEMBLY FRAMES >OUT

ASSEMBLY is clang's, for Thumb, and FRAMES what it wrote for -fstack-usage.
"""
import re
import sys

CONDITION = "eq|ne|cs|hs|cc|lo|mi|pl|vs|vc|hi|ls|ge|lt|gt|le"
BRANCH = re.compile(r'^\t(bl?x?)(?:%s)?(?:\.[nw])?\t("[^"]*"|\S+)' % CONDITION, re.M)
FUNCTION = re.compile(r'^\t\.type\t("[^"]*"|[^,\s]+),%function$.*?^\t\.size\t\1,', re.M | re.S)


def stop(why):
    sys.exit("stack.py: " + why)


def frames(text):
    """The frame of each function, in bytes."""
    for line in text.splitlines():
        place, size, kind = line.split("\t")
        if kind != "static":
            stop("a frame whose size isn't known: " + line)
        yield place.split(":", 1)[1], int(size)


def calls(text):
    """Each function, with those that it calls, and those that it becomes once its own frame is gone."""
    bodies = {it[1].strip('"'): it[0] for it in FUNCTION.finditer(text)}
    for name, body in bodies.items():
        within, after = set(), set()
        for how, to in BRANCH.findall(body):
            to = to.strip('"')
            if how in ("bx", "blx") and to != "lr":
                stop("%s goes on where a register says" % name)
            if how in ("b", "bl") and (to in bodies or not to.startswith(".L")):
                (within if how == "bl" else after).add(to)
        yield name, within, after


def deepest(made, own):
    """The stack of each function, in bytes, and the functions that the program has to have."""
    found, under_way, outside = {}, [], set()

    def visit(name):
        if name not in made:
            outside.add(name)
            return 0
        if name in under_way:
            stop("%s calls itself" % name)
        if name not in found:
            under_way.append(name)
            within, after = made[name]
            found[name] = max([own[name] + max([visit(it) for it in within], default=0), *map(visit, after)])
            under_way.pop()
        return found[name]

    for name in made:
        visit(name)
    return found, outside


def main(assembly, usage):
    with open(assembly) as text:
        content = text.read()
        made = {name: (within, after) for name, within, after in calls(content)}
    with open(usage) as text:
        own = dict(frames(text.read()))
    if set(own) != set(made):
        stop("other functions have a frame: " + " ".join(sorted(set(own) ^ set(made))))
    found, outside = deepest(made, own)
    exported = re.findall(r'^\t\.globl\t(\S+)', content, re.M)
    print("# The bytes of stack that a call of each function needs at most, with all that it calls here.")
    print("# Not in the archive: %s." % ", ".join(sorted(outside)))
    print("# The greatest frame has %d bytes." % max(own.values()))
    for name in sorted(exported, key=lambda it: (-found[it], it)):
        print("%5d %s" % (found[name], name))


if __name__ == "__main__":
    main(*sys.argv[1:])
