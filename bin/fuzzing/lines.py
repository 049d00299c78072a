"""Lines of text, spoilt."""


def spoil_line(random, lines):
    """Changes a line, or moves it, or leaves it out."""
    at = random.randrange(len(lines))
    words = lines[at].split(b' ')
    place = random.randrange(len(words))
    what = random.randrange(9)
    if what == 0:
        line = bytearray(lines[at] or b'\0')
        line[random.randrange(len(line))] = random.getrandbits(8)
        lines[at] = bytes(line)
    elif what == 1:
        lines.insert(random.randint(0, len(lines)), random.choice((lines[at], b'', b'#', b'# \xFF', b'table', b' ', b'\0', b'x' * 5000)))
    elif what == 2:
        lines.insert(random.randint(0, len(lines)), lines.pop(at))
    elif what == 3:
        lines[at] = b' '.join(words[:place] + words[place + 1:])
    elif what == 4:
        words.insert(place, random.choice(words + [b'', b'0', b'-', b'=']))
        lines[at] = b' '.join(words)
    elif what == 5:
        words[place] = random.choice((b'0', b'00', b'4294967295', b'4294967296', b'18446744073709551616', b'9' * 3000, b'-', b'-1', b'+1', b'1.5',
                                      b'=', b'~', b'0x1', b'', b'\xC3\xA9', b'integer', b'gpc0', b'gpc0_rate:0', b'1/2/3', b'n' * 256))
        lines[at] = b' '.join(words)
    elif what == 6:
        words[place] += random.choice((b'0', b' ', b'\r', b'\t', b'\0', b'x', words[place]))
        lines[at] = b' '.join(words)
    elif what == 7:
        lines[at] = lines[at].swapcase()
    elif what == 8 and len(lines) > 1:
        del lines[at]
