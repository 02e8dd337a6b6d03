"""Runs a program that reads standard input: on files, through a pipe in pieces, and where a read or a write fails. The tests of the programs report and rewrite share it.
"""
import array, contextlib, fcntl, itertools, os, resource, socket, subprocess, tempfile, termios, time

# The sizes of the pieces, again and again; the whole at once where there are none.
PIECES = [(), (1,), (4_095,), (4_096,), (4_097,), (1, 4_095, 2, 4_097, 3, 4_096, 61_441, 7)]

# What a program says on standard error where a read or a write fails, behind its name: the system's word for why stands last.
READ, WRITE = 'cannot read: ', 'cannot write: '
DIRECTORY, DESCRIPTOR, RESET, FULL, LARGE, BROKEN = 'Is a directory', 'Bad file descriptor', 'Connection reset by peer', 'No space left on device', 'File too large', 'Broken pipe'


def shown(got):
    """What was got, cut where it is long."""
    text = repr(got)
    return text if len(text) <= 300 else f'{text[:200]} .. {text[-60:]}'


def unread(pipe):
    number = array.array('i', [0])
    fcntl.ioctl(pipe, termios.FIONREAD, number)
    return number[0]


def pieces(file, sizes):
    at = 0
    for size in itertools.cycle(sizes or (len(file),)):
        if at >= len(file):
            return
        yield file[at:at + size]
        at += size


@contextlib.contextmanager
def opened(path, flags=os.O_RDONLY):
    number = os.open(path, flags)
    yield number
    os.close(number)


@contextlib.contextmanager
def holding(file):
    """An open file that holds these bytes, and is read from its beginning."""
    with tempfile.TemporaryFile() as out:
        out.write(file)
        out.seek(0)
        yield out


class Program:
    """A program's name, the words of the command that runs it, and how many of its runs were wrong."""

    def __init__(self, name, command):
        self.name, self.command, self.runs, self.wrong = name, command, 0, 0

    def expect(self, what, got, wanted):
        self.runs += 1
        if got != wanted:
            self.wrong += 1
            print(f'{self.name}, {what}: {shown(got)} and not {shown(wanted)}')

    def says(self, failure, why):
        return f'{self.name}: {failure}{why}\n'

    def start(self, **streams):
        return subprocess.Popen(self.command, stderr=subprocess.PIPE, **{'stdout': subprocess.PIPE, **streams})

    def ended(self, running):
        """What the program printed and said, and its status."""
        printed, said = running.communicate()
        return printed or b'', said.decode(), running.returncode

    def on_file(self, file):
        with holding(file) as source:
            return self.ended(self.start(stdin=source))

    def through_pipe(self, file, sizes):
        """The file in pieces, the next one when the program has read the one before; one that reads no more is written no more."""
        running = self.start(stdin=subprocess.PIPE, bufsize=0)
        try:
            for piece in pieces(file, sizes):
                sent = memoryview(piece)
                while sent:
                    sent = sent[running.stdin.write(sent):]
                while unread(running.stdin) and running.poll() is None:
                    time.sleep(0)
        except BrokenPipeError:
            pass
        running.stdin.close()
        running.stdin = None
        return self.ended(running)

    def with_files(self, files, wanted):
        """Holds what the program prints of each file to the bytes `wanted` of it; what it printed of each."""
        printed = {}
        for i, (name, file) in enumerate(files.items()):
            right = (wanted(file), '', 0)
            got = self.on_file(file)
            self.expect(f'{name} as a file', got, right)
            printed[name] = got[0]
            # One piece size a short file in turn; all of them where there are pieces of 4,095 bytes and more, but single bytes, which take long.
            sizes = PIECES[i % len(PIECES)]
            for sizes in [sizes] if len(file) < 4_095 else [s for s in PIECES if s != (1,)]:
                self.expect(f'{name} in pieces of {sizes}', self.through_pipe(file, sizes), right)
        return printed

    def with_failures(self, file, wanted):
        """Reads and writes that fail; the file is one of which the program prints more than five bytes."""
        with opened('/') as source:
            self.expect('a directory', self.ended(self.start(stdin=source)), (b'', self.says(READ, DIRECTORY), 0))
        with opened(os.devnull, os.O_WRONLY) as source:
            self.expect('an input that cannot be read', self.ended(self.start(stdin=source)), (b'', self.says(READ, DESCRIPTOR), 0))
        with opened(os.devnull) as source:
            self.expect('an input that ends at once', self.ended(self.start(stdin=source)), (wanted(b''), '', 0))
        # A peer that leaves with bytes unread resets the stream: the whole file can be read, and then a read fails.
        near, far = socket.socketpair()
        near.send(b'never read')
        far.sendall(file)
        far.close()
        with near:
            self.expect('a read that fails behind a right file', self.ended(self.start(stdin=near)), (b'', self.says(READ, RESET), 0))
        with holding(file) as source, opened('/dev/full', os.O_WRONLY) as full:
            self.expect('a full device', self.ended(self.start(stdin=source, stdout=full)), (b'', self.says(WRITE, FULL), 0))
        with holding(file) as source, opened(os.devnull) as shut:
            self.expect('an output that cannot be written', self.ended(self.start(stdin=source, stdout=shut)), (b'', self.says(WRITE, DESCRIPTOR), 0))
        # A file that may grow to so many bytes takes a part of what is written, and nothing more; the program goes on, as this one ignores the signal for it.
        for room in 5, len(wanted(file)) - 1:
            with holding(file) as source, holding(b'') as short:
                limit = lambda: resource.setrlimit(resource.RLIMIT_FSIZE, (room, room))
                said = self.ended(self.start(stdin=source, stdout=short, preexec_fn=limit, restore_signals=False))
                short.seek(0)
                self.expect(f'an output with room for {room} bytes', (short.read(), *said[1:]), (wanted(file)[:room], self.says(WRITE, LARGE), 0))
        # Rattle's programs go on where they write to a pipe that nobody reads: the write fails.
        reader, writer = os.pipe()
        os.close(reader)
        with holding(file) as source:
            self.expect('a pipe that nobody reads', self.ended(self.start(stdin=source, stdout=writer)), (b'', self.says(WRITE, BROKEN), 0))
        os.close(writer)

    def say(self):
        """Says how many runs there were; whether any was wrong."""
        print(f'{self.name}: {self.runs} runs, {self.wrong} wrong')
        return self.wrong > 0
