"""Asks the prover about changed crates: by the incremental check (`rt check`), in a copy of the tree, so that a change costs seconds.

What the incremental check proves is not the verdict of a gate; what it refuses is refused: it takes over only what it finds unchanged.
"""
import glob
import os
import re
import shutil
import signal
import subprocess
import tempfile
import threading
import time

ITEM = re.compile(r'^ *(?:pub )?(?:extern "C" )?fn (\w+)|^(?:pub )?(?:const|struct|enum) ', re.M)
# A name by which a function may be called: `f(`, `.f(`, `f::<N>(`, and `f` where it is passed or named alone, as `and_then(cell::parent)`; no field.
NAME = re.compile(r'(?<![.\w])\w+\b(?!:[^:])|(?<=\.)\w+(?=\(|::<)')
NO_CODE = re.compile(r'//.*|^ *#\[.*\]$', re.M)  # comments, attributes
IMPL = re.compile(r'^impl(?:<[^{]*?>)? ([^{]+?)(?: for ([^{]+?))? \{$', re.M)
TOO_LONG = 600  # seconds: a wrong program can lead the prover's own search astray

TOP = os.path.abspath(os.path.join(os.path.dirname(os.path.abspath(__file__)), '..', '..'))


def needs():
    """the crates of the repository, each with all that it stands on, in the order of crates.txt"""
    out = {}
    with open(os.path.join(TOP, 'crates.txt'), encoding='utf-8') as f:
        for line in f:
            name, colon, rest = line.split('#')[0].partition(':')
            if colon:
                out[name.split()[0]] = rest.split()
    return out


def spoken(kind):
    """a type as it stands in the name that the prover prints for a function of an impl: `Result<i32, Refusal>` is ResultI32Refusal"""
    return ''.join(word[:1].upper() + word[1:] for word in re.findall(r'\w+', kind))


def impl_at(text, place):
    """the impl in whose text this place stands, as the prover names it: of a trait the type, then the trait with its parameters; else the type; None outside of any"""
    for m in IMPL.finditer(text):
        end = text.find('\n}', m.end())
        if m.start() <= place and (end < 0 or place < end):
            first, second = m.group(1), m.group(2)
            return spoken(second) + spoken(first) if second else spoken(first)
    return None


def function_at(crate, file, text, place):
    """the function in whose text this place of a source file stands, by the name that the prover prints; None if it is a constant or a type"""
    name = None
    for m in ITEM.finditer(text):
        if m.start() > place:
            break
        name = m.group(1)
    modules = [m for m in file[len('src/'):-len('.rt')].split('/') if m not in ('lib', 'main', 'mod')]
    within = impl_at(text, place)
    return name and '::'.join([crate, *modules, *([within] if within else []), name])


def called_by(crate):
    """For each function of a crate all those of the crate that it calls, itself among them, also through others; by their last names.
    `into` and `?` may call the `from` of an impl. A variable with a function's name counts too: that costs a check, and a call that is missed would hide an edit."""
    calls = {}
    for path in glob.glob(os.path.join(TOP, 'crates', crate, 'src', '**', '*.rt'), recursive=True):
        with open(path, encoding='utf-8') as f:
            text = f.read()
        heads = list(ITEM.finditer(text)) + [None]
        for m, following in zip(heads, heads[1:]):
            if m.group(1):
                body = NO_CODE.sub('', text[m.end():following.start() if following else len(text)])
                body = body[max(body.find('{\n'), 0):]  # no clauses before it
                names = set(NAME.findall(body))
                calls.setdefault(m.group(1), set()).update(names, ['from'] if 'into' in names or '?' in body else [])
    reach = {f: {f} for f in calls}
    grown = True
    while grown:
        grown = False
        for f in reach:
            more = set().union(*(calls[g] & calls.keys() for g in reach[f])) - reach[f]
            if more:
                reach[f] |= more
                grown = True
    return reach


def together(crate, changes):
    """Changes in groups that can be asked together: of functions of which none calls another, since the prover judges each by itself.
    A change has the names of the functions that it changes, None if it changes anything else as well."""
    reach, groups = called_by(crate), []
    last = lambda functions: {f and f.split('::')[-1] for f in functions}
    for change in changes:
        for group in groups:
            own, others = last(change.functions), last(f for o in group for f in o.functions)
            if None not in own | others and not any(f in reach[g] or g in reach[f] for f in own for g in others):
                group.append(change)
                break
        else:
            groups.append([change])
    return groups


def unproved(said):
    """the functions that are not proved, but for those that are not only because they call such a one"""
    return set(re.findall(r'^fn (\S+): (?:not proved|no proof(?!: it calls))', said, re.M))


RUNNING, TREES, ENDED = set(), set(), threading.Event()


def leave(*_):
    """nothing goes on and nothing stays when the command is ended"""
    ENDED.set()
    for group in list(RUNNING):
        try:
            os.killpg(group, signal.SIGKILL)
        except ProcessLookupError:
            pass
    for tree in list(TREES):
        shutil.rmtree(tree, ignore_errors=True)
    os._exit(1)


signal.signal(signal.SIGTERM, leave)
signal.signal(signal.SIGINT, leave)


class Tree:
    """A copy of the tree. Whoever has one asks one question at a time. rt begins there with what checks in other copies kept of the same crates."""

    def __init__(self):
        self.top = tempfile.mkdtemp(prefix='tishkolan-')
        TREES.add(self.top)
        skip = ['./.git', './target', './crates/*/out']
        pack = subprocess.Popen(['tar', *(f'--exclude={s}' for s in skip), '-cf', '-', '.'], cwd=TOP, stdout=subprocess.PIPE)
        subprocess.run(['tar', '-xf', '-'], cwd=self.top, stdin=pack.stdout, check=True)
        if pack.wait():
            raise OSError('the tree was not copied')

    def close(self):
        shutil.rmtree(self.top, ignore_errors=True)
        TREES.discard(self.top)

    def path(self, crate, file):
        return os.path.join(self.top, 'crates', crate, file)

    def ask(self, crate):
        """(verdict, what was said, seconds); the verdict is proved, refused, no program, or untold"""
        began = time.time()
        status, said = self.check(crate)
        took = time.time() - began
        if status == 0:
            return 'proved', said, took
        if status == 1:
            return ('refused' if re.search(r'^logic=not-proved', said, re.M) else 'no program'), said, took
        return 'untold', said, took

    def check(self, crate, *words):
        return self.run(['rt', 'check', *words], self.path(crate, '.'))

    def runs(self, program):
        """whether a program is proved and, run as `rt ci` runs it, prints what its file stdout has"""
        at, made = self.path(program, '.'), self.path(program, f'out/{program}')
        if os.path.exists(made):
            os.remove(made)
        self.run(['rt', 'run'], at)  # on no input: it makes the program
        if not os.path.exists(made):
            return False

        def file(name):
            path = self.path(program, name)
            return open(path, 'rb').read() if os.path.exists(path) else b''

        with tempfile.TemporaryDirectory() as room:
            data = os.path.join(room, 'data')
            if os.path.isdir(self.path(program, 'data')):
                shutil.copytree(self.path(program, 'data'), data)
            else:
                os.mkdir(data)
            try:
                ran = subprocess.run([made, *file('args').decode().splitlines()], cwd=data, input=file('stdin'), stdout=subprocess.PIPE, timeout=120)
            except subprocess.TimeoutExpired:
                return False
        return (ran.returncode, ran.stdout) == (int(file('status') or 0), file('stdout'))

    def run(self, words, folder):
        """the exit status of a command in a folder of this tree, None if it takes too long, and what it said"""
        run = subprocess.Popen(
            words,
            cwd=folder,
            stdin=subprocess.DEVNULL,
            stdout=subprocess.PIPE,
            stderr=subprocess.STDOUT,
            encoding='utf-8',
            errors='replace',
            start_new_session=True,
        )
        RUNNING.add(run.pid)
        try:
            said, _ = run.communicate(timeout=TOO_LONG)
            while ENDED.is_set():
                time.sleep(1)
            return run.returncode, said
        except subprocess.TimeoutExpired:
            os.killpg(run.pid, signal.SIGKILL)
            said, _ = run.communicate()
            return None, said
        finally:
            RUNNING.discard(run.pid)


def each(crates, work):
    """does work(tree, crate) for each of these crates, on as many trees at a time as RT_JOBS says (2); the dearest crates stand last in crates.txt, and begin first"""
    left, faults, lock = list(crates), [], threading.Lock()

    def serve():
        tree = None
        try:
            tree = Tree()
            while True:
                with lock:
                    if faults or not left:
                        return
                    crate = left.pop()
                work(tree, crate)
        except BaseException as fault:
            faults.append(fault)
        finally:
            if tree:
                tree.close()

    threads = [threading.Thread(target=serve) for _ in range(max(1, min(int(os.environ.get('RT_JOBS') or 2), len(left))))]
    for t in threads:
        t.start()
    for t in threads:
        t.join()
    if faults:
        raise faults[0]
