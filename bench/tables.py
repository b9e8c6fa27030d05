"""The tables of README.md: their headings and rows, what was recorded in them, and their places in the file.

A table stands there between the lines `<!--table:NAME-->` and `<!--end-->`, and run.py --write replaces it.
"""
import os
import re

README = os.path.join(os.path.dirname(os.path.abspath(__file__)), 'README.md')
CALLS = {0: 'size', 1: 'bytes', 3: 'value', 4: 'text', 5: 'read', 6: 'typed', 7: 'untyped size', 8: 'untyped bytes', 10: 'kept'}
BYTES, READ = 1, 5
WHO, READERS = ['table', 'values', 'project', 'proton', 'rmp-serde', 'prost'], ['values', 'project']
ALLOWED = 1.03
# Who reads a type from bytes: the library's call, and plain Rust, of whose instructions it takes at most so many times.
FROM_SLICE, BY_HAND, MOST_READ = '`from_slice`', 'hand', 1.3
READS, COUNTED, PROVED = ['`from_value`', '`TryFrom`'], 'instructions', 'proved build'

# The columns of the table of writing: what is called, and who is counted. The project takes at most so many times the instructions
# of plain Rust, but in bold.
WRITES = [(0, 'table'), (0, 'project'), (1, 'table'), (1, 'project'), (1, 'proton'), (1, 'rmp-serde'), (1, 'prost'), (10, 'project'),
          (7, 'values'), (7, 'project'), (8, 'values'), (8, 'project')]
MOST_WRITTEN = {0: 0.75, 1: 1.0, 7: 1.3, 8: 1.5}

# The headings, by the name of the table. A run that measures times too prints more columns than README.md has.
HEADS = {
    'writes': ['Shape', 'Bytes', 'size: hand', 'project', 'bytes: hand', 'project', 'Proton', 'rmp-serde', 'prost', 'kept: project',
               'untyped size: hand', 'project', 'untyped bytes: hand', 'project', 'allocations'],
    'shapes': ['Shape', 'Bytes', 'Call', 'instructions: values', 'project', 'allocations: values', 'project'],
    'types': ['Type', 'Bytes', BY_HAND, FROM_SLICE, '%s / hand' % FROM_SLICE],
    'maps': ['Map', *READS],
    'workloads': ['Workload', COUNTED, PROVED],
}


def line_of(cells):
    """A row of a table. Without blanks between, since tools/check_documents counts each bar between blanks as a word."""
    return '|' + '|'.join(cells) + '|'


def heading(heads):
    return [line_of(heads), line_of(['-'] * len(heads))]


def place(name):
    """A pattern of a table of README.md, with its marks."""
    return re.compile(r'(?<=<!--table:%s-->\n\n)(?:\|.*\n)*(?=\n<!--end-->)' % name)


def put(tables):
    """Replaces tables of README.md."""
    with open(README, encoding='utf-8') as file:
        text = file.read()
    for name, lines in tables.items():
        text, count = place(name).subn(lambda _: ''.join(line + '\n' for line in lines), text)
        assert count == 1, 'README.md has no place for the table ' + name
    with open(README, 'w', encoding='utf-8') as file:
        file.write(text)


def faults(text):
    """Yields the line of each table of a document that has another heading than run.py writes, and which."""
    for it in re.finditer(r'<!--table:(\w+)-->\n\n(.*)\n', text):
        if it[2] != line_of(HEADS.get(it[1], [])):
            yield text.count('\n', 0, it.start(2)) + 1, 'bench/run.py writes another heading of the table ' + it[1]


def rows_of(name):
    """The cells of the rows of a table of README.md."""
    with open(README, encoding='utf-8') as file:
        found = place(name).search(file.read())
    return [line.strip('|').split('|') for line in found[0].splitlines()[2:]]


def recorded():
    """The project's instructions and allocations, by shape and call, and the instructions of types, maps and workloads."""
    rows = {}
    allocated = lambda cell: tuple(int(it) for it in cell.strip(')').split(' ('))
    for cells in rows_of('writes'):
        for (call, who), cell in zip(WRITES, cells[2:]):
            if who == 'project' and cell != '-':
                rows[cells[0], CALLS[call]] = (int(cell.strip('*')), *(allocated(cells[-1]) if call == BYTES else ()))
    for cells in rows_of('shapes'):
        if cells[-1] != '-':
            rows[cells[0], cells[2]] = (int(cells[HEADS['shapes'].index('project')]), *allocated(cells[-1]))
    for name in ('types', 'maps', 'workloads'):
        for cells in rows_of(name):
            rows.update({(cells[0], head): (int(cell),) for head, cell in zip(HEADS[name][1:], cells[1:]) if cell.isdigit()})
    return rows


def check(names, found, more):
    """Prints each call that differs from the tables; 1 where one is worse, or is not there."""
    rows, worse = recorded(), 0
    now = {key: (count,) for key, count in more.items()}
    for (shape, call, _), at in found.items():
        now[names[shape], CALLS[call]] = (round(at['instructions']), int(at['calls']), int(at['bytes']))
    for key, counts in now.items():
        if key not in rows:
            print('%s, %s: not in the tables' % key)
            worse = 1
            continue
        for word, new, old in zip(['instructions', 'allocations', 'bytes asked for'], counts, rows[key]):
            if new > old * ALLOWED:
                worse = 1
            if new != old:
                print('%s, %s: %d %s for %d%s' % (*key, new, word, old, ', WORSE' if new > old * ALLOWED else ''))
    print('worse than the tables' if worse else 'within three percent of the tables')
    return worse


def writes(names, size, found):
    """The table of what writing takes, with the misses in bold. Where a peer was not counted, its cell stays as README.md has it."""
    old, lines = {cells[0]: cells[2:] for cells in rows_of('writes')}, heading(HEADS['writes'])
    for shape, name in names.items():
        counts = [found.get((shape, *it), {}).get('instructions') for it in WRITES]
        cells = ['%d' % round(it) if it else '-' for it in counts]
        for at, (call, who) in enumerate(WRITES):
            by_hand = counts[at - 1] if who == 'project' and call in MOST_WRITTEN else None
            if by_hand and counts[at] and round(counts[at] / by_hand, 2) > MOST_WRITTEN[call]:
                cells[at] = '**%s**' % cells[at]
            if who not in WHO[:3] and not counts[at] and name in old:
                cells[at] = old[name][at]
        at = found[shape, BYTES, 'project']
        lines.append(line_of([name, size[shape], *cells, '%s (%s)' % (at['calls'], at['bytes'])]))
    return lines


def shapes(names, size, found):
    """The table of what each other call takes; with times, if they were measured."""
    with_times = any('ns' in at for at in found.values())
    heads = HEADS['shapes']
    lines = heading(heads[:5] + ['ns a byte: values', 'project'] * with_times + heads[5:])
    for shape, name in names.items():
        for call, word in CALLS.items():
            at = [found.get((shape, call, who), {}) for who in READERS]
            if not any(at) or (call, 'project') in WRITES:
                continue
            length = at[-1].get('length', int(size[shape]))
            row = [name, str(length), word]
            row += ['%d' % round(x['instructions']) if 'instructions' in x else '-' for x in at]
            row += ['%.4f' % (x['ns'] / length) if 'ns' in x else '-' for x in at] * with_times
            row += ['%s (%s)' % (x['calls'], x['bytes']) if 'calls' in x else '-' for x in at]
            lines.append(line_of(row))
    return lines


def types(lengths, found):
    """The table of what reading each type from bytes takes, with the misses in bold."""
    lines = heading(HEADS['types'])
    for name, length in lengths.items():
        counts = [found[name, who] for who in (BY_HAND, FROM_SLICE)]
        ratio = '%.2f' % (counts[1] / counts[0])
        lines.append(line_of([name, length] + ['%d' % count for count in counts] + [ratio if float(ratio) <= MOST_READ else '**%s**' % ratio]))
    return lines


def others(name, found):
    """A table of instructions, by name and head. What was not counted stays as README.md has it."""
    old = recorded()
    cell = lambda key: str(found[key]) if key in found else str(*old.get(key, '-'))
    return heading(HEADS[name]) + [line_of([row] + [cell((row, head)) for head in HEADS[name][1:]]) for row in dict.fromkeys(row for row, _ in found)]
