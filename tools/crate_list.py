"""What crates.txt says: the crates, in its order, and which libraries each uses."""


class BadList(Exception):
    """What is wrong with crates.txt, in words."""


def uses():
    """What each crate uses, by its name; of a line 'NAME staticlib: ..' the name alone. A library that is no crate of the list is the toolchain's."""
    try:
        with open('crates.txt', encoding='utf-8') as file:
            lines = [line.split('#')[0].strip() for line in file]
    except (OSError, UnicodeDecodeError) as error:
        raise BadList('crates.txt can\'t be read: %s' % error)
    named = {}
    for number, line in enumerate(lines, 1):
        left, colon, right = line.partition(':')
        if line and not (colon and left.split()):
            raise BadList('crates.txt, line %d, is not NAME: LIBRARY..: %s' % (number, line))
        if not line:
            continue
        name = left.split()[0]
        if name in named:
            raise BadList('crates.txt, line %d: %s stands in a line before' % (number, name))
        named[name] = right.split()
    return named


def needed(names, used):
    """These crates and all that they stand on, each behind what it stands on."""
    found, open_ones = [], []

    def add(name):
        if name in open_ones:
            raise BadList('crates.txt has a circle: %s' % ' '.join(open_ones[open_ones.index(name):] + [name]))
        if name not in found:
            open_ones.append(name)
            for it in used[name]:
                if it in used:
                    add(it)
            open_ones.pop()
            found.append(name)

    for name in names:
        if name not in used:
            raise BadList('crates.txt has no crate %s' % name)
        add(name)
    return found
