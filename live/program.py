"""The proved program over a pipe, and turns of two sides."""
import contextlib
import subprocess
import threading


class Program:
    """The program over a pipe: one line in, its items out. Nothing is told to it but by `tell`."""

    def __init__(self, path, folder, resume=False, transcript=None):
        self.pipe = subprocess.Popen([path, 'run', *['--resume'] * resume, folder], stdin=subprocess.PIPE, stdout=subprocess.PIPE)
        self.turn, self.lines, self.transcript = threading.Lock(), 0, open(transcript, 'wb', 0) if transcript else None

    def tell(self, line):
        """Tells a line. Gives the words of its reply, and the messages that it sends."""
        with self.turn:
            self.pipe.stdin.write(line.encode() + b'\n')
            self.pipe.stdin.flush()
            self.lines += 1
            messages = []
            for item in self.pipe.stdout:
                if self.transcript:
                    self.transcript.write(item)
                _, kind, rest = item.decode().rstrip('\n').split(' ', 2)
                if kind == 'send':
                    messages.append(rest)
                if kind == 'reply':
                    return rest.split(' '), messages
            raise SystemExit(f'the program ended with {self.pipe.wait()} at: {line}')

    def close(self):
        self.pipe.stdin.close()
        self.pipe.stdout.read()
        if self.transcript:
            self.transcript.close()
        return self.pipe.wait()


class Turns:
    """Lets many of one side in together, or many of the other, and never both. The sides take turns."""

    def __init__(self):
        self.moved, self.side, self.inside, self.left, self.waiting = threading.Condition(), 0, 0, 0, [0, 0]

    def may_enter(self, side):
        if not self.inside:
            return self.side == side or not self.waiting[1 - side]
        return self.side == side and (self.left > 0 or not self.waiting[1 - side])

    @contextlib.contextmanager
    def on(self, side):
        with self.moved:
            self.waiting[side] += 1
            self.moved.wait_for(lambda: self.may_enter(side))
            if not self.inside:
                self.side, self.left = side, self.waiting[side]
            self.waiting[side] -= 1
            self.inside += 1
            self.left -= 1
        try:
            yield
        finally:
            with self.moved:
                self.inside -= 1
                if not self.inside:
                    self.side = 1 - side
                self.moved.notify_all()
