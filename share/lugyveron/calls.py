"""How the scripts of bin/ call the proved programs: side by side, over bytes that nobody changes, and none outlives
its caller."""

import collections
import ctypes
import fcntl
import functools
import hashlib
import os
import pathlib
import selectors
import signal
import subprocess
import sys
import time
import traceback

# The status of a command that failed.
FAULT = 3

PIECE_BYTES = 1 << 16
SECONDS_TO_END = 10
STOPPING = (signal.SIGINT, signal.SIGTERM, signal.SIGHUP)
SEALS = fcntl.F_SEAL_SEAL | fcntl.F_SEAL_SHRINK | fcntl.F_SEAL_GROW | fcntl.F_SEAL_WRITE
SET_DEATH_SIGNAL = 1  # PR_SET_PDEATHSIG of prctl(2)

LIBRARY = ctypes.CDLL(None)

# What to call: the program and its words, the bytes that it reads, the folder that it runs in, and how long it may
# take (no number: as long as it likes). `pieces` of what it put have their times; `told` is its standard error.
Call = collections.namedtuple("Call", "program words text folder seconds")
Done = collections.namedtuple("Done", "status pieces told seconds is_over")


class Failed(Exception):
    """Why a command failed."""


class Stopped(Exception):
    """The signal that stopped the calls."""


def put(to, text):
    """Writes bytes to a descriptor, all of them."""
    while text:
        text = text[os.write(to, text) :]


def tell(text):
    """A line on standard error, where there is one."""
    try:
        put(2, (text if isinstance(text, bytes) else os.fsencode(text)) + b"\n")
    except OSError:
        pass


def reason(error):
    """Why something failed, in words."""
    if not getattr(error, "strerror", None):
        return str(error)
    is_named = isinstance(error.filename, (str, bytes, os.PathLike))
    return f"{os.fsdecode(error.filename)}: {error.strerror}" if is_named else error.strerror


def expect_streams():
    """Complains where standard output is closed. A closed standard input or error is opened, so that no file takes
    its place."""
    for stream in (0, 1, 2):
        try:
            os.fstat(stream)
        except OSError:
            os.dup2(os.open(os.devnull, os.O_RDWR), stream)
            if stream == 1:
                raise Failed("standard output is closed") from None


def ended(name, work):
    """Ends the process with the status of the work: 3 where it failed, and by the signal that stopped it."""
    status = FAULT
    try:
        expect_streams()
        status = work()
    except Stopped as stop:
        tell(f"{name}: stopped")
        signal.signal(stop.args[0], signal.SIG_DFL)
        os.kill(os.getpid(), stop.args[0])
    except (Failed, OSError) as why:
        tell(f"{name}: {reason(why)}")
    except Exception:
        tell(f"{name}: " + traceback.format_exc().rstrip())
    sys.exit(status)


class Bytes:
    """Bytes in memory that are read as a file, and that nobody can change any more."""

    def __init__(self, text):
        self.file = open(os.memfd_create("circuit", os.MFD_CLOEXEC | os.MFD_ALLOW_SEALING), "r+b", buffering=0)
        put(self.file.fileno(), text)
        fcntl.fcntl(self.file.fileno(), fcntl.F_ADD_SEALS, SEALS)

    def begin(self):
        """A file that reads them from the first one on."""
        return open(f"/proc/self/fd/{self.file.fileno()}", "rb", buffering=0)


class Program:
    """A program, and the checksum of its bytes. One that another has replaced since is not called."""

    def __init__(self, path):
        self.path = path
        self.file = open(path, "rb")
        self.checksum = hashlib.sha256(self.file.read()).hexdigest()

    def expect_same(self):
        """Complains where the name is of another file by now, or the file was written to."""
        was, now = os.fstat(self.file.fileno()), os.stat(self.path)
        if any(getattr(was, part) != getattr(now, part) for part in ("st_dev", "st_ino", "st_size", "st_mtime_ns")):
            raise OSError(f"{self.path} was replaced meanwhile")


def die_with(parent, by):
    """Has the system send this process a signal where the parent ends."""
    LIBRARY.prctl(SET_DEATH_SIGNAL, by)
    if os.getppid() != parent:
        os.kill(os.getpid(), by)


def dying(by=signal.SIGKILL):
    """What a child does first, so that it dies with this process."""
    return functools.partial(die_with, os.getpid(), by)


def started(call):
    """The process of a call. One that may take long dies with this one."""
    call.program.expect_same()
    given = call.text.begin() if call.text else subprocess.DEVNULL
    try:
        return subprocess.Popen(
            [call.program.path, *call.words],
            cwd=call.folder,
            stdin=given,
            stdout=subprocess.PIPE,
            stderr=subprocess.PIPE,
            preexec_fn=dying() if call.seconds else None,
        )
    finally:
        if call.text:
            given.close()


class Child:
    """A call that is under way, for a task."""

    def __init__(self, call, task):
        self.task = task
        self.begun = time.monotonic()
        self.process = started(call)
        self.deadline = self.begun + call.seconds if call.seconds else None
        self.pieces, self.told = [], []
        self.streams = {self.process.stdout: self.pieces, self.process.stderr: self.told}

    def hear(self, stream):
        """Reads a piece. Whether the stream has ended."""
        piece = os.read(stream.fileno(), PIECE_BYTES)
        self.streams[stream].append((time.monotonic() - self.begun, piece))
        return not piece

    def done(self, is_over):
        """What the call has done, once its streams have ended or its time is over."""
        if is_over:
            self.process.kill()
        status = self.process.wait()
        for stream in (self.process.stdout, self.process.stderr):
            stream.close()
        told = b"".join(piece for _, piece in self.told)
        return Done(status, self.pieces, told, time.monotonic() - self.begun, is_over)


class Signals:
    """Notes the signals that stop a command, and wakes who waits. Those that are ignored stay so."""

    def __enter__(self):
        self.heard = None
        self.wakes, self.waker = os.pipe2(os.O_CLOEXEC | os.O_NONBLOCK)
        self.before = signal.set_wakeup_fd(self.waker)
        self.handlers = {number: signal.getsignal(number) for number in STOPPING}
        for number, handler in self.handlers.items():
            if handler != signal.SIG_IGN:
                signal.signal(number, self.note)
        return self

    def note(self, number, _frame):
        self.heard = self.heard or number

    def __exit__(self, *_):
        for number, handler in self.handlers.items():
            signal.signal(number, handler)
        signal.set_wakeup_fd(self.before)
        os.close(self.wakes)
        os.close(self.waker)


class Crew:
    """The calls that are under way."""

    def __init__(self):
        self.selector = selectors.DefaultSelector()
        self.children = {}

    def advance(self, task, step):
        """Has a task go on by a step, and begins the call that it comes to, where it has not ended. A call that the
        system does not begin is an error in the task."""
        while True:
            try:
                call = step()
            except StopIteration:
                return
            try:
                child = Child(call, task)
            except OSError as error:
                step = functools.partial(task.throw, error)
                continue
            self.children[child] = child.streams.copy()
            for stream in child.streams:
                self.selector.register(stream, selectors.EVENT_READ, child)
            return

    def drop(self, child, stream):
        """No longer waits for a stream. Whether it was the last one of the child."""
        self.selector.unregister(stream)
        del self.children[child][stream]
        return not self.children[child]

    def end(self, child, is_over):
        """Tells a child's task what was done."""
        for stream in list(self.children[child]):
            self.drop(child, stream)
        del self.children[child]
        self.advance(child.task, functools.partial(child.task.send, child.done(is_over)))

    def wait(self):
        """Waits until something was heard, or a time is over, and has the tasks go on."""
        ends = [child.deadline for child in self.children if child.deadline is not None]
        heard = self.selector.select(max(0, min(ends) - time.monotonic()) if ends else None)
        for key, _ in heard:
            if key.data and key.data.hear(key.fileobj) and self.drop(key.data, key.fileobj):
                self.end(key.data, False)
        for child in [child for child in self.children if child.deadline and child.deadline <= time.monotonic()]:
            self.end(child, True)

    def stop(self):
        """Stops all children, waits for them, and closes their tasks."""
        for child in self.children:
            child.process.terminate()
        end = time.monotonic() + SECONDS_TO_END
        for child in self.children:
            try:
                child.process.wait(max(0, end - time.monotonic()))
            except subprocess.TimeoutExpired:
                child.process.kill()
                child.process.wait()
            child.task.close()
        self.children.clear()


def side_by_side(take, jobs):
    """Runs tasks, so many at a time. `take` gives the next one, or nothing where none is there now. A task is a
    generator of calls, which gets what each has done."""
    crew = Crew()
    with Signals() as signals:
        crew.selector.register(signals.wakes, selectors.EVENT_READ)
        try:
            while signals.heard is None:
                task = take() if len(crew.children) < jobs else None
                if task is not None:
                    crew.advance(task, functools.partial(next, task))
                elif crew.children:
                    crew.wait()
                else:
                    return
        finally:
            crew.stop()
            crew.selector.close()
        raise Stopped(signals.heard)


def one(task):
    """Runs one task."""
    tasks = [task]
    side_by_side(lambda: tasks.pop() if tasks else None, 1)


def programs(script, *names):
    """The programs of these names: beside the script where they are installed, and in the repository those that
    bin/started finds, or proves and builds first."""
    here = pathlib.Path(script).resolve().parent
    paths = [here / name for name in names]
    if (here / "started").exists():
        how = {"stdin": subprocess.DEVNULL, "stdout": subprocess.PIPE, "preexec_fn": dying(signal.SIGTERM)}
        found = subprocess.run([here / "started", "--path", *names], check=False, **how)
        if found.returncode:
            raise Failed("there are no programs")
        paths = [pathlib.Path(os.fsdecode(path)) for path in found.stdout.split(b"\n")[:-1]]
    return [Program(path) for path in paths]
