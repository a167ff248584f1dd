#!/usr/bin/env python3
"""Times ds2 beside what its users would pick instead, in one interleaved run.

usage: bench/jobs.py --product crates/ds2/out/ds2 [--jobs first arith merge billing totals totals50k] [--size S M L] [--threads 1,2,4] [--runs 5] [--json FILE] [--md]

A folder of jobs/ has the source, a generator of its tables with a fixed seed, the commands (job.json) and the programs of the
peers: mawk, gawk, miller, Python, pandas, sqlite3, R's data.table, for `merge` sort and join, and for the totals datamash, those that are found here. limits/ has
the same job in C, and `cat` copies the bytes of the input. The product runs a job with a thread program, `totals` (40 regions) and `totals50k` (50,000), once for
each number of --threads. S is 10,000 rows, M 200,000, L 1,000,000. Each tool has a folder of its own; it runs once to
compare its rows with those of the Python program, and then once in each round, which begins with another tool each time. Columns:
median and least wall seconds, median user seconds and peak MB, times the fastest peer (`*`) and the C program, nanoseconds a row.
It ends with 1 where the product gave wrong rows. Needs Python 3 and gcc.
"""
import argparse, csv, hashlib, json, os, platform, shutil, signal, statistics, subprocess, sys, tempfile, time

HERE = os.path.dirname(os.path.abspath(__file__))
ROWS = {'tiny': 300, 'S': 10_000, 'M': 200_000, 'L': 1_000_000}
ORDER = ['first', 'arith', 'merge', 'billing', 'totals', 'totals50k']
LIMITS = ('C -O3', 'cat')
PYTHON = '/usr/bin/python3' if os.path.exists('/usr/bin/python3') else sys.executable   # the python that is measured
ENV = {**os.environ, 'LC_ALL': 'C', 'TZ': 'UTC'}


def load_jobs():
    jobs = {}
    for name in sorted(os.listdir(os.path.join(HERE, 'jobs'))):
        path = os.path.join(HERE, 'jobs', name, 'job.json')
        if os.path.exists(path):
            with open(path) as f:
                jobs[name] = json.load(f)
    return {k: jobs[k] for k in ORDER + [n for n in jobs if n not in ORDER] if k in jobs}


def sha(path):
    h = hashlib.sha256()
    with open(path, 'rb') as f:
        while b := f.read(1 << 20):
            h.update(b)
    return h.hexdigest()


def build(scratch):
    """The launcher and the limit programs; None where there is no gcc."""
    out = os.path.join(scratch, 'bin')
    os.makedirs(out, exist_ok=True)
    src = os.path.join(HERE, 'limits')
    if not shutil.which('gcc'):
        sys.exit('bench: gcc is needed for the launcher and the limit programs')
    for f in sorted(os.listdir(src)):
        if f.endswith('.c'):
            t = os.path.join(out, f[:-2])
            newest = max(os.path.getmtime(os.path.join(src, x)) for x in (f, 'common.h'))
            if not os.path.exists(t) or os.path.getmtime(t) < newest:
                subprocess.run(['gcc', '-O3', '-march=native', '-o', t, os.path.join(src, f)], check=True)
    return out


def data(scratch, job, size):
    """The folder of the job's inputs at this size, generated where its stamp is not the generator's."""
    gen = os.path.join(HERE, 'jobs', job, 'gen.py')
    d = os.path.join(scratch, 'data', job, size)
    stamp, want = os.path.join(d, '.stamp'), sha(gen) + ' %d' % ROWS[size]
    if not (os.path.exists(stamp) and open(stamp).read() == want):
        shutil.rmtree(d, ignore_errors=True)
        os.makedirs(d)
        subprocess.run([sys.executable, gen, str(ROWS[size]), d], check=True)
        with open(stamp, 'w') as f:
            f.write(want)
    return d


class Tool:
    """One column of a comparison: kind is product, peer or limit."""

    def __init__(self, name, kind, command, output):
        self.name, self.kind, self.command, self.output = name, kind, command, output
        self.runs, self.status, self.note, self.rows = [], None, '', None


def tools_of(args, jobs, name, binaries):
    job = jobs[name]
    peers = os.path.join(HERE, 'jobs', job['peers_of'], 'peers')
    tools = []
    for label, path in args.products:
        if job['threads']:
            tools += [Tool(f'{label} -t{n}', 'product', [path, 'run', 'job.ds2', '--threads', str(n)], job['output'])
                      for n in args.threads]
        else:
            tools.append(Tool(label, 'product', [path, 'run', 'job.ds2'], job['output']))
    for p, command in job['peers'].items():
        if args.peers is not None and p not in args.peers:
            continue
        first = {'python': PYTHON, 'pandas': '/usr/bin/python3', 'miller': 'mlr', 'R-data.table': 'Rscript',
                 'sort+join': 'join'}.get(p, p)
        if not shutil.which(first):
            continue
        command = command.replace('{peers}', peers).replace('{python}', PYTHON)
        tools.append(Tool(p, 'peer', ['sh', '-c', command], 'peer.csv'))
    if not args.no_limits:
        tools.append(Tool('C -O3', 'limit', [os.path.join(binaries, job['limit'])], 'peer.csv'))
        tools.append(Tool('cat', 'limit', ['sh', '-c', 'exec cat %s > copy' % ' '.join(job['inputs'])], None))
    return tools


def prepare(scratch, job, spec, size, tool, folder):
    """A run folder of the tool's own, with the inputs as hard links."""
    d = os.path.join(scratch, 'run', f'{job}-{size}-{tool.name}'.replace(' ', '_').replace('/', '_'))
    shutil.rmtree(d, ignore_errors=True)
    os.makedirs(d)
    for f in spec['inputs']:
        try:
            os.link(os.path.join(folder, f), os.path.join(d, f))
        except OSError:
            shutil.copy(os.path.join(folder, f), os.path.join(d, f))
    if tool.kind == 'product':
        shutil.copy(os.path.join(HERE, 'jobs', job, 'job.ds2'), d)
    tool.folder = d


def once(binaries, spec, tool, timeout):
    """One run: (wall, user, sys, kilobytes, status), or None at the timeout."""
    keep = set(spec['inputs']) | {'job.ds2'}
    for f in os.listdir(tool.folder):
        if f not in keep:
            os.unlink(os.path.join(tool.folder, f))
    log, res = os.path.join(tool.folder, '.log'), os.path.join(tool.folder, '.rusage')
    with open(log, 'wb') as o:
        p = subprocess.Popen([os.path.join(binaries, 'rusage'), res, '--'] + tool.command, cwd=tool.folder, stdout=o,
                             stderr=subprocess.STDOUT, stdin=subprocess.DEVNULL, env=ENV, start_new_session=True)
        try:
            p.wait(timeout)
        except subprocess.TimeoutExpired:
            os.killpg(p.pid, signal.SIGKILL)
            p.wait()
            return None
    with open(res) as f:
        w, u, s, kb, st = f.read().split()
    return float(w), float(u), float(s), int(kb), int(st)


def rows_hash(path):
    """The hash of the rows after the header, read as CSV, and their number."""
    h, n = hashlib.sha256(), 0
    with open(path, newline='', encoding='utf-8') as f:
        r = csv.reader(f)
        next(r)
        for row in r:
            n += 1
            h.update('\x1f'.join(row).encode() + b'\x1e')
    return h.hexdigest(), n


def reference(scratch, binaries, jobs, job, size, folder):
    """Rows of the python program (exact integers), kept by the inputs' stamp and the program's text."""
    spec = jobs[job]
    peers = os.path.join(HERE, 'jobs', spec['peers_of'], 'peers')
    d = os.path.join(scratch, 'ref', f'{job}-{size}')
    key = open(os.path.join(folder, '.stamp')).read() + sha(os.path.join(peers, 'py.py'))
    note = os.path.join(d, '.key')
    if not (os.path.exists(note) and open(note).read().split('\n')[0] == key):
        shutil.rmtree(d, ignore_errors=True)
        os.makedirs(d)
        for f in spec['inputs']:
            shutil.copy(os.path.join(folder, f), d)
        subprocess.run([PYTHON, os.path.join(peers, 'py.py')], cwd=d, check=True)
        h, n = rows_hash(os.path.join(d, 'peer.csv'))
        for f in os.listdir(d):
            os.unlink(os.path.join(d, f))
        with open(note, 'w') as f:
            f.write(f'{key}\n{h}\n{n}')
    _, h, n = open(note).read().split('\n')
    return h, int(n)


def relate(out):
    """The ratios of one job and size.  A peer with wrong rows is no measure."""
    peers = [e for e in out if e['kind'] == 'peer' and 'wall' in e and e['rows_equal'] is not False]
    best = min(peers, key=lambda e: e['wall'], default=None)
    lim = next((e for e in out if e['tool'] == 'C -O3' and 'wall' in e), None)
    for e in out:
        if 'wall' in e:
            e['to_peer'] = e['wall'] / best['wall'] if best else None
            e['to_c'] = e['wall'] / lim['wall'] if lim else None
            e['fastest_peer'] = best['tool'] if best else None
            e['to_peer_min'] = e['wall_min'] / min(p['wall_min'] for p in peers) if peers else None
            e['to_c_min'] = e['wall_min'] / lim['wall_min'] if lim else None


def measure(args, scratch, binaries, jobs, job, size):
    spec = jobs[job]
    folder = data(scratch, job, size)
    want = reference(scratch, binaries, jobs, job, size, folder)
    tools = tools_of(args, jobs, job, binaries)
    live = []
    for t in tools:                                  # one run that is not counted: warm caches, check of the rows
        prepare(scratch, job, spec, size, t, folder)
        r = once(binaries, spec, t, args.timeout)
        if r is None:
            t.status, t.note = 'timeout', f'more than {args.timeout} s'
            continue
        t.status = r[4]
        if r[4] != 0:
            text = open(os.path.join(t.folder, '.log'), errors='replace').read().strip().split('\n')
            t.note = f'status {r[4]}: {text[-1][:80]}'
            continue
        if t.output and not args.no_check:
            try:
                got = rows_hash(os.path.join(t.folder, t.output))
            except (OSError, StopIteration, UnicodeDecodeError) as e:
                t.status, t.note = 'no output', str(e)[:80]
                continue
            t.rows = got == want
            if not t.rows:
                t.note = f'WRONG ROWS ({got[1]} for {want[1]})'
        if args.count_first:
            t.runs.append(r)
        live.append(t)
    for i in range(args.runs):                       # interleaved, each round in another order
        for k in range(len(live)):
            t = live[(k + i) % len(live)]
            r = once(binaries, spec, t, args.timeout)
            if r and r[4] == 0:
                t.runs.append(r)
            else:
                t.note = t.note or 'a run failed'
    for t in tools:
        if not args.keep:
            shutil.rmtree(t.folder, ignore_errors=True)
    size_in = sum(os.path.getsize(os.path.join(folder, f)) for f in spec['inputs'])
    n = 0
    for f in spec['inputs']:
        with open(os.path.join(folder, f), 'rb') as g:
            n += sum(b.count(b'\n') for b in iter(lambda: g.read(1 << 20), b'')) - 1
    out = []
    for t in tools:
        e = {'job': job, 'size': size, 'tool': t.name, 'kind': t.kind, 'rows': n, 'bytes': size_in, 'note': t.note,
             'rows_equal': t.rows, 'status': t.status}
        if t.runs:
            w = [r[0] for r in t.runs]
            e.update(wall=statistics.median(w), wall_min=min(w), user=statistics.median(r[1] for r in t.runs),
                     user_min=min(r[1] for r in t.runs), sys=statistics.median(r[2] for r in t.runs),
                     mb=statistics.median(r[3] for r in t.runs) / 1024, mb_min=min(r[3] for r in t.runs) / 1024,
                     runs=[list(r) for r in t.runs])
        out.append(e)
    relate(out)
    return out


HEAD = ['job', 'size', 'tool', 'seconds', 'min', 'user', 'MB', 'x peer', 'x peer min', 'x C', 'x C min', 'ns/row', 'note']


def cells(e):
    if 'wall' not in e:
        return [e['job'], e['size'], e['tool'], '-', '-', '-', '-', '-', '-', '-', '-', '-', e['note']]
    mark = ' *' if e['kind'] == 'peer' and e['tool'] == e['fastest_peer'] else ''
    f = lambda v: '-' if v is None else f'{v:.2f}' if v < 100 else f'{v:.0f}'
    note = e['note'] or ('' if e['rows_equal'] or e['tool'] == 'cat' else 'not checked')
    return [e['job'], e['size'], e['tool'] + mark, f'{e["wall"]:.3f}', f'{e["wall_min"]:.3f}', f'{e["user"]:.3f}',
            f'{e["mb"]:.0f}', f(e['to_peer']), f(e['to_peer_min']), f(e['to_c']),
            f(e['to_c_min']), f'{e["wall"] / e["rows"] * 1e9:.0f}', note]


def table(head, rows, md):
    if md:
        return '\n'.join(['| ' + ' | '.join(head) + ' |', '|' + '---|' * len(head)]
                         + ['| ' + ' | '.join(map(str, r)) + ' |' for r in rows])
    w = [max(len(str(r[i])) for r in [head] + rows) for i in range(len(head))]
    text = lambda i: head[i] in ('job', 'size', 'tool', 'note', 'marginal CPU', 'growth', 'fastest peer', 'by min')
    return '\n'.join('  '.join(str(c).ljust(w[i]) if text(i) else str(c).rjust(w[i]) for i, c in enumerate(r)).rstrip()
                     for r in [head] + rows)


def sort_key(e):
    return ({'product': 0, 'peer': 1, 'limit': 2}[e['kind']], e.get('wall', 9e9) if e['kind'] == 'peer' else 0)


def cpu(e):
    """Seconds of user and system time, the least of the runs."""
    return max(1e-4, min(r[1] + r[2] for r in e['runs']))


def scaling(results, sizes):
    """Per row: wall ns at each size, and the marginal CPU ns between two sizes, which leaves the start-up out and hangs
    less on what else runs."""
    by = {}
    for e in results:
        if 'wall' in e and e['tool'] != 'cat':
            by.setdefault((e['job'], e['tool']), {})[e['size']] = e
    rows = []
    for (job, tool), d in by.items():
        have = [s for s in sizes if s in d]
        if len(have) < 2:
            continue
        per = [f'{d[s]["wall"] / d[s]["rows"] * 1e9:.0f}' if s in d else '-' for s in sizes]
        m = []
        for a, b in zip(have, have[1:]):
            m.append((cpu(d[b]) - cpu(d[a])) / (d[b]['rows'] - d[a]['rows']) * 1e9)
        flag = ''
        if len(m) > 1 and m[0] > 0:
            g = m[-1] / m[0]
            flag = f'{g:.2f}' + (' grows' if g > 1.5 else '')
        rows.append([job, tool] + per + [' / '.join(f'{x:.0f}' for x in m), flag])
    head = ['job', 'tool'] + [f'ns/row {s}' for s in sizes] + ['marginal CPU', 'growth']
    return head, rows


def block(r, jobs, md):
    e = r[0]
    return (f'\n{"### " if md else ""}{e["job"]} {e["size"]}: {jobs[e["job"]]["text"]}; {e["rows"]:,} rows, '
            f'{e["bytes"]:,} bytes\n\n') + table(HEAD, [cells(x) for x in r], md)


def scaling_block(results, md):
    sizes = [s for s in ROWS if any(e['size'] == s for e in results)]
    head, rows = scaling(results, sizes)
    return (f'\n{"### " if md else ""}scaling: wall ns per row, and marginal CPU ns per row from size to size; growth is '
            f'the last marginal by the first\n\n') + table(head, rows, md)


def summary_block(results, md):
    """One line for each job and size: the fastest peer by median and by least time, the limits, each product."""
    by = {}
    for e in results:
        by.setdefault((e['job'], e['size']), []).append(e)
    names = list(dict.fromkeys(e['tool'] for e in results if e['kind'] == 'product'))
    head = ['job', 'size', 'fastest peer', 'seconds', 'by min', 'seconds', 'C -O3', 'cat', 'peer / C', 'min / C min', 'CPU / C CPU', 'MB']
    for n in names:
        head += [n, '/ peer', '/ C']
    rows = []
    for (job, size), r in by.items():
        peers = [e for e in r if e['kind'] == 'peer' and 'wall' in e and e['rows_equal'] is not False]
        one = {e['tool']: e for e in r if 'wall' in e}
        if not peers:
            continue
        p, q = min(peers, key=lambda e: e['wall']), min(peers, key=lambda e: e['wall_min'])
        c, cat = one.get('C -O3'), one.get('cat')
        row = [job, size, p['tool'], f'{p["wall"]:.3f}', q['tool'], f'{q["wall_min"]:.3f}',
               f'{c["wall_min"]:.3f}' if c else '-', f'{cat["wall_min"]:.3f}' if cat else '-',
               f'{p["wall"] / c["wall"]:.1f}' if c else '-', f'{q["wall_min"] / c["wall_min"]:.1f}' if c else '-',
               f'{cpu(q) / cpu(c):.1f}' if c else '-', f'{p["mb"]:.0f}']
        for n in names:
            e = one.get(n)
            if e is None:
                row += ['-' if all(x['tool'] != n for x in r) else 'failed', '', '']
            else:
                row += [f'{e["wall"]:.3f}' + (' WRONG' if e['rows_equal'] is False else ''), f'{e["wall"] / p["wall"]:.2f}',
                        f'{e["wall"] / c["wall"]:.1f}' if c else '-']
        rows.append(row)
    return (f'\n{"### " if md else ""}summary (seconds of C and cat are the least; / peer and / C are of medians)\n\n'
            + table(head, rows, md))


def show_all(results, jobs, args):
    results = list({(e['job'], e['size'], e['tool']): e for e in results}.values())   # of later files where twice
    seen = []
    for e in results:
        if (e['job'], e['size']) not in seen:
            seen.append((e['job'], e['size']))
    rank, ordered = list(jobs), []
    for j, s in sorted(seen, key=lambda k: (rank.index(k[0]), list(ROWS).index(k[1]))):
        if (args.jobs is None or j in args.jobs):
            r = [e for e in results if (e['job'], e['size']) == (j, s)]
            relate(r)
            r.sort(key=sort_key)
            ordered += r
            if not args.brief:
                print(block(r, jobs, args.md))
    if len({s for _, s in seen}) > 1:
        print(scaling_block(ordered, args.md))
    print(summary_block(ordered, args.md))


def versions():
    out = {}
    for name, cmd in {'mawk': 'mawk -W version 2>&1 | head -1', 'gawk': 'gawk --version | head -1',
                      'miller': 'mlr --version', 'sqlite3': 'sqlite3 --version | cut -d" " -f1',
                      'R': 'Rscript --version 2>&1', 'datamash': 'datamash --version | head -1',
                      'gcc': 'gcc --version | head -1', 'coreutils': 'sort --version | head -1',
                      'data.table': "Rscript --vanilla -e 'cat(as.character(packageVersion(\"data.table\")))' 2>/dev/null",
                      'pandas': "/usr/bin/python3 -c 'import pandas; print(pandas.__version__)' 2>/dev/null"}.items():
        p = subprocess.run(['sh', '-c', cmd], capture_output=True, text=True, env=ENV)
        if p.stdout.strip():
            out[name] = p.stdout.strip()
    out['python'] = subprocess.run([PYTHON, '--version'], capture_output=True, text=True).stdout.strip()
    return out


def main():
    a = argparse.ArgumentParser(description=__doc__)
    a.add_argument('--product', action='append', default=[], metavar='[NAME=]BIN', help='the ds2 to measure; may be given more than once')
    a.add_argument('--jobs', nargs='+', metavar='NAME')
    a.add_argument('--size', nargs='+', default=['M'], choices=list(ROWS), metavar='S|M|L', help='one or more sizes')
    a.add_argument('--runs', type=int, default=5)
    a.add_argument('--count-first', action='store_true', help='count the checking run too (for long runs with warm caches)')
    a.add_argument('--threads', default='1,2,4', help='the --threads of the product for thread jobs')
    a.add_argument('--peers', help='comma list of the peers to run (none: "")')
    a.add_argument('--no-limits', action='store_true')
    a.add_argument('--no-check', action='store_true', help='do not compare the output rows')
    a.add_argument('--timeout', type=float, default=300)
    a.add_argument('--scratch', default=os.path.join(tempfile.gettempdir(), 'ds2-bench'))
    a.add_argument('--keep', action='store_true', help='leave the run folders')
    a.add_argument('--json', metavar='FILE', help='all numbers ("-" for standard output instead of the tables)')
    a.add_argument('--md', action='store_true', help='tables as Markdown')
    a.add_argument('--brief', action='store_true', help='with --from: the scaling and the summary alone')
    a.add_argument('--from', nargs='+', dest='source', metavar='FILE', help='run nothing; print the tables of these JSON files')
    args = a.parse_args()
    if args.source:
        docs = [json.load(open(f)) for f in args.source]
        return show_all([e for d in docs for e in d['results']], load_jobs(), args)
    args.products = []
    for p in args.product:
        name, path = p.split('=', 1) if '=' in p else ('ds2', p)
        path = os.path.abspath(path)
        if not os.access(path, os.X_OK):
            sys.exit(f'bench: {path} is no program')
        args.products.append((name, path))
    args.threads = [int(x) for x in args.threads.split(',')]
    args.peers = None if args.peers is None else [x for x in args.peers.split(',') if x]
    jobs = load_jobs()
    for j in args.jobs or []:
        if j not in jobs:
            sys.exit(f'bench: no job {j}; there are {", ".join(jobs)}')
    os.makedirs(args.scratch, exist_ok=True)
    binaries = build(args.scratch)
    quiet = args.json == '-'
    say = (lambda *x: None) if quiet else (lambda *x: print(*x, flush=True))
    doc = {'time': time.strftime('%Y-%m-%d %H:%M:%S'), 'machine': platform.machine(), 'cpus': os.cpu_count(),
           'load_before': os.getloadavg()[0], 'versions': versions(), 'runs': args.runs, 'results': []}
    cpu = [l.split(':')[1].strip() for l in open('/proc/cpuinfo') if l.startswith('model name')]
    doc['cpu'] = cpu[0] if cpu else ''
    for j in (args.jobs or jobs):
        for s in args.size:
            r = sorted(measure(args, args.scratch, binaries, jobs, j, s), key=sort_key)
            doc['results'] += r
            doc['load_after'] = os.getloadavg()[0]
            say(block(r, jobs, args.md))
            if args.json and not quiet:              # after each block, so that a stopped run leaves what it has
                with open(args.json, 'w') as f:
                    json.dump(doc, f, indent=1)
    if len(args.size) > 1:
        say(scaling_block(doc['results'], args.md))
    say(summary_block(doc['results'], args.md))
    doc['load_after'] = os.getloadavg()[0]
    say(f'\n* the fastest peer; x peer: wall time by its; x C: by the C program\'s; min: of the least times; load {doc["load_before"]:.1f} '
        f'before, {doc["load_after"]:.1f} after; medians of {args.runs} runs')
    if quiet:
        print(json.dumps(doc, indent=1))
    wrong = [e for e in doc['results'] if e['kind'] == 'product' and e['rows_equal'] is False]
    sys.exit(1 if wrong else 0)


if __name__ == '__main__':
    main()
