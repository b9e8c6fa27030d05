"""Builds the functions of tool_bench and the driver, measures, and prints the tables of README.md.

    python3 bench/run.py [--check | --write | --proton] [--proved] [--library FILE] [--jobs FILE] [--keep FOLDER] [--no-instructions] [--no-time]

Needs rt, rustc and ar, and valgrind for the instructions. Qpid Proton, and rmp-serde and prost by cargo, write too where Debian's
packages of them are installed. tools/native.py builds without proofs, as a proved build is made. --proved
counts the workloads alone, of programs that `rt ci` proves and builds; it proves the libraries too, unless it has kept them.
--library takes a library that stands ready, made by --keep: FOLDER/libamqp.a is the project with the kit's heap functions, in one
file. --jobs takes a built program tool_jobs, whose workloads are counted, as are those of tool_messages in its folder. --check
measures the project's instructions and allocations alone, compares them with the tables of README.md, and fails where one is more
than three percent above them. --write measures all but times, and writes these tables. --proton measures reading untyped values and
types, and writing and reading frames and messages, beside Qpid Proton alone, and needs libqpid-proton11-dev.
"""
import ctypes.util
import datetime
import glob
import os
import re
import shutil
import subprocess
import sys
import tempfile
from concurrent.futures import ThreadPoolExecutor

HERE = os.path.dirname(os.path.abspath(__file__))
sys.path[:0] = [HERE, os.path.join(HERE, '..', 'tools')]
sys.dont_write_bytecode = True
import lowering  # noqa: E402
import native  # noqa: E402
import tables  # noqa: E402
from tables import BY_HAND, BYTES, CALLS, COUNTED, FROM_SLICE, PROVED, READ, READS, WHO, heading, line_of  # noqa: E402

# All shapes are one program, as types of a user are: code that one place calls would be in line there. The job `keep` has types of its
# own for the sections, so it has a library of its own.
LIBRARIES = [['amqp_bench', 'amqp_shape', 'amqp_maps', 'amqp_read', 'amqp_write', 'amqp_frames'], ['amqp_keep']]
# The calls that answer with the length of the bytes, and those that answer with the hash.
LENGTHS, HASHES = [0, 1, 7, 8, 10], [2, 9]
# Who writes other bytes, and what the driver needs for them.
PEERS, PROTON, REGISTRY = ['proton', 'rmp-serde', 'prost'], ['--cfg', 'proton', '-C', 'link-arg=-lqpid-proton'], '/usr/share/cargo/registry'
# The kinds of keys of the maps that are read, and their numbers of keys.
KINDS, COUNTS = ['text', 'symbol', 'uuid'], [64, 130]
# The part of a workload's rounds that is counted.
PART = 20


def arg(name, default=None):
    return sys.argv[sys.argv.index(name) + 1] if name in sys.argv else default


def run(words, **more):
    return subprocess.run(words, check=True, capture_output=True, text=True, **more).stdout


def library(folder):
    """The functions of tool_bench and the kit's heap functions, in one file."""
    module, out, parts = os.path.join(folder, 'module.bc'), os.path.join(folder, 'libamqp.a'), []
    with native.assembled() as room:
        words = native.module(room, 'tool_bench', module)
        lines = native.bare(room, module)
    for index, names in enumerate(LIBRARIES):
        text, part = (os.path.join(folder, 'part%d.%s' % (index, kind)) for kind in ('ll', 'o'))
        with open(text, 'w', encoding='utf-8') as file:
            file.writelines(line + '\n' for line in lowering.exported(lines, 'tool_bench', names))
        native.compiled(words, text, part, 3)
        parts.append(part)
    run(['ar', 'x', os.path.join(native.kit().KIT, 'c', 'liblibc_c.a'), '--output', folder])
    heap = run(['ar', 't', os.path.join(native.kit().KIT, 'c', 'liblibc_c.a')]).split()
    if os.path.exists(out):
        os.remove(out)
    run(['ar', 'qcs', out] + parts + [os.path.join(folder, it) for it in heap])
    return out


# The processor that the project is built for is x86-64-v2 too, and it is compiled as one unit.
def driver(folder, made, name, more):
    out, how = os.path.join(folder, name), ['-C', 'target-cpu=x86-64-v2', '-C', 'codegen-units=1']
    run(['rustc', '-O', '--edition', '2024', os.path.join(HERE, 'driver.rs'), '-o', out, *how, '-C', 'link-arg=' + made] + more)
    return out


def peers(folder):
    """What adds the peers to a driver that are installed: Qpid Proton, and rmp-serde and prost as Debian has them."""
    words = PROTON * bool(ctypes.util.find_library('qpid-proton'))
    if all(glob.glob('%s/%s-*' % (REGISTRY, it)) for it in ('rmp-serde', 'prost-derive', 'serde_derive')):
        place, made = os.path.join(folder, 'peers'), os.path.join(folder, 'peers', 'target', 'release')
        shutil.copytree(os.path.join(HERE, 'peers'), place, dirs_exist_ok=True)
        source = ['--config', 'source.crates-io.replace-with="debian"', '--config', 'source.debian.directory="%s"' % REGISTRY]
        run(['cargo', 'build', '--release', '--offline', *source], cwd=place, env={**os.environ, 'RUSTFLAGS': '-C target-cpu=x86-64-v2'})
        words += ['--cfg', 'peers', '--extern', 'peers=%s/libpeers.rlib' % made, '-L', 'dependency=%s/deps' % made]
    return words


def programs(folder, names):
    """The programs of the workloads, by their names."""
    built = arg('--jobs')
    if built:
        return {name: built if name == 'tool_jobs' else os.path.join(os.path.dirname(os.path.abspath(built)), name) for name in names}
    if '--proved' in sys.argv:
        room = os.path.join(folder, 'proved')
        native.assemble(room, names)
        subprocess.run(['rt', 'ci'], cwd=room, stdin=subprocess.DEVNULL, stdout=sys.stderr, check=True)
        return {name: os.path.join(room, 'crates', name, 'out', name) for name in names}
    with native.assembled() as room:
        for name in names:
            native.build(room, name, os.path.join(folder, name), is_bare=True)
    return {name: os.path.join(folder, name) for name in names}


def counted(words):
    """The instructions of a whole run, by callgrind."""
    words = ['valgrind', '--tool=callgrind', '--callgrind-out-file=/dev/null'] + words
    return int(re.search(r'Collected : (\d+)', subprocess.run(words, check=True, capture_output=True, text=True).stderr)[1])


def instructions(words):
    """Those of a call: the second of two runs has four calls more, so building the value falls out."""
    return (counted(words + ['8']) - counted(words + ['4'])) / 4


def at_once(call, rows):
    """What a call gives for each row, several rows at a time: counts do not depend on what runs beside."""
    with ThreadPoolExecutor(len(os.sched_getaffinity(0))) as pool:
        return dict(zip(rows, pool.map(lambda row: call(*rows[row]), rows)))


def maps(plain):
    """The instructions of reading each map, by its name and the call."""
    rows = {('%d %s keys' % (count, word), read): ([plain, 'maps', str(kind), str(count), str(op)],)
            for kind, word in enumerate(KINDS) for count in COUNTS for op, read in enumerate(READS)}
    return at_once(lambda words: round(instructions(words)), rows)


def reads(plain, who):
    """The instructions of reading each type from bytes, by its name and who reads it."""
    rows = {}
    for line in run([plain, 'reads']).splitlines():
        index, _, name = line.split(' ', 2)
        rows[name, who] = ([plain, 'reads', 'project' if who == FROM_SLICE else who, index],)
    return at_once(lambda words: round(instructions(words)), rows)


def workloads(folder, plain):
    """The instructions of a part of the rounds of each workload, with the seed 1. `keep` writes what `send` writes."""
    with open(os.path.join(HERE, 'workloads.txt'), encoding='utf-8') as file:
        lines = [line.split() for line in file]
    built = programs(folder, list(dict.fromkeys(line[1] for line in lines)))
    kind, rows = PROVED if '--proved' in sys.argv else COUNTED, {}
    for name, crate, *words, rounds in lines:
        words = ['1' if word == 'SEED' else word for word in words] + [str(int(rounds) // PART)]
        rows[name, kind] = ([built[crate]] + words,)
        if name == 'send' and plain:
            assert run([plain, 'keep'] + words[1:]) == run([built[crate]] + words), 'keep writes other bytes than send'
            rows['keep', kind] = ([plain, 'keep'] + words[1:],)
    return at_once(counted, rows)


def answers(plain, counting, who):
    """The shapes' names and lengths, and what is measured of each call: its allocations, and its instructions unless left out."""
    names, size, text, hashes, found = {}, {}, {}, {}, {}
    for line in run([plain, 'list']).splitlines():
        one, shape, call, answer, name = line.split(' ', 4)
        names[shape] = name
        if one in ('walked', *PEERS) and int(call) != BYTES:
            continue
        if int(call) in LENGTHS and one not in PEERS:
            size.setdefault(shape, answer)
            assert size[shape] == answer, '%s counts another length for shape %s' % (one, name)
        if CALLS.get(int(call)) == 'text':
            assert text.setdefault(shape, answer) == answer, '%s writes another text for shape %s' % (one, name)
        if int(call) in HASHES:
            assert hashes.setdefault(shape, answer) == answer, '%s writes other bytes for shape %s' % (one, name)
        elif one in who:
            found[shape, int(call), one] = {'length': int(answer)} if CALLS[int(call)] == 'text' else {}
    for (shape, call, one), at in found.items():
        at['calls'], at['bytes'] = run([counting, 'count', one, shape, str(call)]).split()
    rows = {key: ([plain, 'run', key[2], key[0], str(key[1])],) for key in found if '--no-instructions' not in sys.argv}
    for key, count in at_once(instructions, rows).items():
        found[key]['instructions'] = count
    return names, size, found


def main():
    folder = os.path.abspath(arg('--keep') or tempfile.mkdtemp(prefix='amqp-bench-'))
    os.makedirs(folder, exist_ok=True)
    if '--proved' in sys.argv:
        return proved(folder)
    made = os.path.abspath(arg('--library') or library(folder))
    if '--proton' in sys.argv:
        return beside_proton(driver(folder, made, 'proton', PROTON))
    links = peers(folder)
    plain = driver(folder, made, 'driver', links)
    counting = driver(folder, made, 'counting', ['-C', 'link-arg=-Wl,--wrap=malloc,--wrap=realloc', '--cfg', 'count', *links])
    if '--check' in sys.argv:
        more = {**reads(plain, FROM_SLICE), **maps(plain), **workloads(folder, plain)}
        names, _, found = answers(plain, counting, ['project'])
        sys.exit(tables.check(names, found, more))
    names, size, found = answers(plain, counting, WHO)
    if not {'--no-time', '--write'} & {*sys.argv}:
        for line in run([plain, 'time']).splitlines():
            who, shape, call, ns = line.split()
            found.get((shape, int(call), who), {})['ns'] = float(ns)
    shown = {'writes': tables.writes(names, size, found), 'shapes': tables.shapes(names, size, found)}
    if '--no-instructions' not in sys.argv:
        lengths = {line.split(' ', 2)[2]: line.split(' ', 2)[1] for line in run([plain, 'reads']).splitlines()}
        shown['types'] = tables.types(lengths, {**reads(plain, BY_HAND), **reads(plain, FROM_SLICE)})
        shown['maps'] = tables.others('maps', maps(plain))
        shown['workloads'] = tables.others('workloads', workloads(folder, plain))
    cpu = [line.split(':')[1].strip() for line in open('/proc/cpuinfo') if line.startswith('model name')][0]
    print('%s, %s; %s; %s.' % (datetime.date.today().strftime('%-d %B %Y'), cpu, run(['rt', 'version']).strip(), run(['rustc', '--version']).strip()))
    told(shown)


def told(shown):
    """Prints tables, or writes them in README.md."""
    if '--write' in sys.argv:
        return tables.put(shown)
    for lines in shown.values():
        print('', *lines, sep='\n')


def proved(folder):
    """Counts the workloads of the proved build."""
    found = workloads(folder, None)
    if '--check' in sys.argv:
        sys.exit(tables.check({}, {}, found))
    kept = {key: count for key, (count,) in tables.recorded().items() if key[1] == COUNTED}
    told({'workloads': tables.others('workloads', {**kept, **found})})


def beside_proton(built):
    """Prints what reading untyped values, and types, takes beside Proton: what is read is freed each time."""
    names, ns = {}, {}
    for line in run([built, 'list']).splitlines():
        one, shape, call, answer, name = line.split(' ', 4)
        if one == 'proton' and int(call) == READ:
            names[shape] = name
    if '--no-time' not in sys.argv:
        for line in run([built, 'time', str(READ)]).splitlines():
            who, shape, call, least = line.split()
            ns[who, shape] = float(least)
        for line in run([built, 'time', 'reads']).splitlines():
            who, index, least = line.split()
            ns[who, 'type', index] = float(least)
        for line in run([built, 'time', 'frames']).splitlines():
            who, index, op, least = line.split()
            ns[who, index, op] = float(least)
    parts = ['Proton', 'and its tree', 'Proton / project', 'and its tree']
    print(*heading(['Shape', 'instructions: project'] + parts + ['ns: project'] + parts), sep='\n')
    for shape, name in names.items():
        who = ['project', 'proton', 'walked']
        show_beside(name, [instructions([built, 'run', one, shape, str(READ)]) for one in who], [ns.get((one, shape)) for one in who])
    print()
    print(*heading(['Type', 'instructions: ' + FROM_SLICE, 'Proton', 'Proton / project', 'ns: ' + FROM_SLICE, 'Proton', 'Proton / project']), sep='\n')
    for line in run([built, 'reads']).splitlines():
        index, _, name = line.split(' ', 2)
        who = ['project', 'walked']
        show_beside(name, [instructions([built, 'reads', one, index]) for one in who], [ns.get((one, 'type', index)) for one in who])
    print()
    print(*heading(['Work', 'instructions: project', 'Proton', 'Proton / project', 'ns: project', 'Proton', 'Proton / project']), sep='\n')
    for line in run([built, 'frames']).splitlines():
        index, _, name = line.split(' ', 2)
        who = ['project', 'proton']
        for op, word in enumerate(['written', 'read']):
            counts = [instructions([built, 'frames', one, index, str(op)]) for one in who]
            show_beside('%s, %s' % (name, word), counts, [ns.get((one, index, str(op))) for one in who])


def show_beside(name, counts, least):
    """Prints a row: the counts and times of the project, those of Proton, and how many times the project's they are."""
    row = [name]
    for figures in (counts, least):
        ratios = ['%.1f' % (one / figures[0]) if all(figures) else '-' for one in figures[1:]]
        row += ['%.0f' % one if one else '-' for one in figures] + [one if one == '-' or float(one) >= 1 else '**%s**' % one for one in ratios]
    print(line_of(row))


if __name__ == '__main__':
    main()
