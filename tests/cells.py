#!/usr/bin/env python3
"""cells.py text | list TABLE | cells LIST TABLE | spoil HOW LIST | altered LIST OTHER: the parts of list.sh and spreadsheet.sh that are about cells.

text: the text of a table whose names a spreadsheet may take for something else. list: the list of a table, by its bytes alone. cells: whether Python's csv
reads of a list what the table's bytes hold. spoil: the list as another program would save it. altered: the cells in which two lists differ.
Status 0 if all is so, 1 if not."""
import csv, io, struct, sys

COLUMNS = b'public,private,server,state,pending,barred,services,roaming,mandatory,m1,m2,m3,m4,optional,o1,o2,o3,o4,start,length,set'
# Formulas, numbers in other forms, dates, words of a spreadsheet, what stands beside a comma, quotes.
NAMES = ['=1+1', '=HYPERLINK("http://isle","x")', '+29051234', '-1', '@SUM(A1)', '00290', '0', '1E5', '1e400', '1.50', '1/2', '2026-11-17', '17.11.2026',
         '12:30', 'TRUE', 'false', '50%', '$5', '4294967296', '123456789012345678901234567890', "'x", ' x', 'x ', 'a,b', 'a;b', 'a"b', '"', '""', '"x"',
         '\\', 'a\\"b', '~', '#REF!', 'NULL', 'sip:alice@isle', 'tel:+29051234']


def text():
    """Each name is the public identity, the private one and the server's name of a line; every second line is not registered."""
    print('host=hss.isle realm=isle keep=1 issue=7\nnetwork=isle')
    for n, name in enumerate(NAMES):
        quoted = '"%s"' % name.replace('\\', '\\\\').replace('"', '\\"')
        server = '' if n % 2 else ' state=registered server=%s' % quoted
        print('\npublic=%s private=%s roaming=isle mandatory=%d,4294967295 optional=0%s profile="<p>%d</p>"' % (quoted, quoted, n, server, n))


def cells_of(table):
    """The cells of a table's records, as docs/LIST.md has the columns."""
    for at in range(512, len(table), 512):
        block = table[at:at + 512]
        names = [block[place:place + block[length]].decode('ascii') for length, place in ((13, 16), (14, 144), (15, 272))]
        mandatory, optional = struct.unpack('>4I', block[368:384]), struct.unpack('>4I', block[384:400])
        bits = [block[9] >> n & 1 for n in range(3)]
        numbers = [block[8], *bits, block[10], block[11], *mandatory, block[12], *optional, *struct.unpack('>IHH', block[400:408])]
        yield names + [str(number) for number in numbers]


def listed(table):
    """Nothing of the library or of its program is in it."""
    sys.stdout.buffer.write(COLUMNS + b'\r\n')
    for cells in cells_of(open(table, 'rb').read()):
        line = ','.join(['"%s"' % name.replace('"', '""') for name in cells[:3]] + cells[3:])
        sys.stdout.buffer.write(line.encode('ascii') + b'\r\n')
    return True


def rows_of(path):
    with open(path, encoding='ascii', newline='') as lines:
        return list(csv.reader(lines, strict=True))


def cells(path, table):
    rows, meant = rows_of(path), list(cells_of(open(table, 'rb').read()))
    return rows[1:] == meant and all(len(row) == 21 for row in rows)


def written(rows, **form):
    out = io.StringIO(newline='')
    csv.writer(out, **form).writerows(rows)
    return out.getvalue().encode('ascii')


def spoil(how, path):
    whole, rows = open(path, 'rb').read(), rows_of(path)
    ways = {'lf': lambda: whole.replace(b'\r\n', b'\n'),
            'mark': lambda: b'\xef\xbb\xbf' + whole,
            'all': lambda: written(rows, quoting=csv.QUOTE_ALL),
            'few': lambda: written(rows),
            'unix': lambda: written(rows, lineterminator='\n'),
            'zeros': lambda: whole.replace(b',0,', b',00,')}
    sys.stdout.buffer.write(ways[how]())
    return True


def altered(path, other):
    """Prints the cells that differ, by line and column."""
    ours, theirs = rows_of(path), rows_of(other)
    for n, (left, right) in enumerate(zip(ours, theirs), 1):
        for column, was, became in zip(ours[0], left, right):
            if was != became:
                print('line %d, %s: %s became %s' % (n, column, was, became))
    return ours == theirs


def main():
    words = sys.argv[1:]
    if words == ['text']:
        return text()
    done = {'list': listed, 'cells': cells, 'spoil': spoil, 'altered': altered}[words[0]](*words[1:])
    sys.exit(0 if done else 1)


main()
