"""Programs with input and output that come whole or in pieces, that fail, that are late and that are slow: what the tests of the programs share.
What a program writes is a pair, standard output and standard error."""
import os
import resource
import signal
import subprocess
import tempfile
import time
import tty


def start(program, **streams):
    """the program, with pipes for the streams that are not given; those that are given are closed here"""
    child = subprocess.Popen([program], **{'stdin': subprocess.PIPE, 'stdout': subprocess.PIPE, 'stderr': subprocess.PIPE, **streams})
    for stream in ('stdin', 'stdout'):
        if stream in streams:
            os.close(streams[stream])
    return child


def ended(child):
    """what it wrote"""
    out, err = child.communicate(timeout=60)
    return out or b'' if child.returncode == 0 else b'exit %d' % child.returncode, err


def run(program, pieces):
    child = start(program)
    for piece in pieces:
        if len(pieces) > 1:
            time.sleep(0.002)  # so that it is read before the next one is there
        try:
            child.stdin.write(piece)
            child.stdin.flush()
        except BrokenPipeError:
            break
    return ended(child)


def in_pieces(data, rnd):
    cuts = sorted(rnd.randrange(len(data) + 1) for _ in range(8))
    return [data[i:j] for i, j in zip([0, *cuts], [*cuts, len(data)])]


def given(data):
    """a file from which the data is read"""
    file = os.memfd_create('given')
    os.write(file, data)
    os.lseek(file, 0, os.SEEK_SET)
    return file


def stop(child):
    time.sleep(0.05)  # so that it waits in a call
    child.send_signal(signal.SIGSTOP)
    os.waitpid(child.pid, os.WUNTRACED)


def broken(data):
    """an input that fails after the data"""
    end, other = os.openpty()
    tty.setraw(other)
    os.write(other, data)
    os.close(other)
    return end


def full_pipe():
    """the ends of a pipe with no room, and how many bytes are in it"""
    end, other = os.pipe()
    os.set_blocking(other, False)
    size = 0
    try:
        while True:
            size += os.write(other, b'.' * 512)
    except BlockingIOError:
        os.set_blocking(other, True)
    return end, other, size


def no_more_than(size):
    """a file that takes more fails, and does not end the program"""
    resource.setrlimit(resource.RLIMIT_FSIZE, (size, size))
    signal.signal(signal.SIGXFSZ, signal.SIG_IGN)


def without_signal():
    """a pipe that nobody reads fails, and does not end the program"""
    signal.signal(signal.SIGPIPE, signal.SIG_IGN)


def failing(program, small, data, out):
    """what is tried, what it wrote, and what it must write: no answer to part of an input, and nothing after a failure; `out` is its output for the
    data, where nothing fails"""
    name, null = os.path.basename(program).encode(), os.open(os.devnull, os.O_RDWR)
    unread, unwritten = (b'', name + b': cannot read standard input\n'), (b'', name + b': cannot write standard output\n')
    yield 'a directory as input', ended(start(program, stdin=os.open('/', os.O_RDONLY))), unread
    yield 'a closed input', ended(start(program, stdin=os.dup(null), preexec_fn=lambda: os.close(0))), unread
    yield 'an input that breaks after a whole map', ended(start(program, stdin=broken(small))), unread
    yield 'a closed output', ended(start(program, stdin=given(data), stdout=os.dup(null), preexec_fn=lambda: os.close(1))), unwritten
    yield 'a full output', ended(start(program, stdin=given(data), stdout=os.open('/dev/full', os.O_WRONLY))), unwritten
    end, other = os.pipe()
    os.close(end)
    yield 'a pipe that nobody reads', ended(start(program, stdin=given(data), stdout=other, preexec_fn=without_signal)), unwritten
    with tempfile.NamedTemporaryFile() as file:
        _, err = ended(start(program, stdin=given(data), stdout=os.dup(file.fileno()), preexec_fn=lambda: no_more_than(9)))
        yield 'a file with room for 9 bytes', (os.pread(file.fileno(), 99, 0), err), (out[:9], unwritten[1])
    os.close(null)


def slow(program, data, out):
    """the same where all must be written, and nothing else"""
    late = start(program)
    for piece in (data[:7], data[7:]):
        stop(late)
        late.stdin.write(piece)
        late.stdin.flush()
        late.send_signal(signal.SIGCONT)
    yield 'a late input', ended(late), (out, b'')
    end, other, size = full_pipe()
    child = start(program, stdin=given(data), stdout=other)
    stop(child)
    child.send_signal(signal.SIGCONT)
    got = b''
    while piece := os.read(end, 700):
        got += piece
        time.sleep(0.001)
    os.close(end)
    yield 'a slow output', (got, ended(child)[1]), (b'.' * size + out, b'')


def whole(program, cases, rnd):
    """the same for inputs with what must be written, each at once and in pieces"""
    for data, want in cases:
        for pieces in ([data], in_pieces(data, rnd)):
            yield f'input of {len(data)} bytes', run(program, pieces), want


def report(name, trials):
    """prints what is wrong and how many trials there were; whether all is right"""
    runs = wrong = 0
    for what, got, want in trials:
        runs += 1
        if got != want:
            wrong += 1
            print(f'{what}: {got!r}, expected {want!r}')
    print(f'{name}: {runs} runs, {wrong} wrong')
    return runs != 0 and wrong == 0
