#!/usr/bin/env python3
# Tries check_table and desk_calls with input that can't be read and output that can't be written: what they write on standard output
# and on standard error. Usage: streams_test.py [DIR], the folder of the two programs, target/bin if not given. Ends with 1 at the
# first difference.
import array
import fcntl
import os
import resource
import select
import signal
import socket
import struct
import subprocess
import sys
import tempfile
import termios
import threading
import time

HERE = os.path.dirname(os.path.dirname(os.path.abspath(__file__)))
BIN = os.path.abspath(sys.argv[1]) if len(sys.argv) > 1 else os.path.join(HERE, "target", "bin")
TABLE = open(os.path.join(HERE, "examples", "pump.txt"), "rb").read()
ACCEPTED = b"     0     0     0     0     0\n"
TOO_LONG = b"     2     1     0     0     0\n"
LOAD = b"load %d\n" % len(TABLE) + TABLE + b"\n"
CALLS = LOAD + b"advance 5\nadvance 100\nverdict\ndrop\n"
ANSWERS = b"load 0\nopen 5\naccepted 7\nverdict 0 0 0 0 0\ndrop 0\n"

# Each program with a whole input, and what it then writes.
PROGRAMS = {"check_table": (TABLE, ACCEPTED), "desk_calls": (CALLS, ANSWERS)}
SECONDS = 20
failures = 0


def start(program, stdin=subprocess.PIPE, stdout=subprocess.PIPE, before=None):
    return subprocess.Popen([os.path.join(BIN, program)], stdin=stdin, stdout=stdout, stderr=subprocess.PIPE, preexec_fn=before)


def expect(case, got, out, said):
    """got is standard output and standard error; said is None where nothing is to be said, else the words after the program's name"""
    global failures
    program = case.split(":")[0]
    err = b"" if said is None else ("%s: %s\n" % (program, said)).encode()
    if got != (out, err):
        failures += 1
        print("streams: %s: wrote %r and said %r; %r and %r are due" % (case, got[0], got[1], out, err))


def finish(process):
    try:
        out, err = process.communicate(timeout=SECONDS)
    except subprocess.TimeoutExpired:
        process.kill()
        out, err = process.communicate()
        err += b"(did not end)"
    return out or b"", err


def wait_until_read(fd):
    """until what has come has been read"""
    left = array.array("i", [1])
    end = time.monotonic() + SECONDS
    while left[0] and time.monotonic() < end:
        fcntl.ioctl(fd, termios.FIONREAD, left)
        time.sleep(0.005)


def in_pieces(program, whole, size):
    process = start(program)
    out = []
    reader = threading.Thread(target=lambda: out.append(process.stdout.read()))
    reader.start()
    for at in range(0, len(whole), size):
        process.stdin.write(whole[at : at + size])
        process.stdin.flush()
        time.sleep(0.002)
    process.stdin.close()
    err = process.stderr.read()
    process.wait(SECONDS)
    reader.join(SECONDS)
    return out[0], err


def not_blocking_in(program, whole):
    """all of an input is there, its end is not told, and the next read can't wait"""
    r, w = os.pipe()
    os.set_blocking(r, False)
    os.write(w, whole)
    process = start(program, stdin=r)
    got = finish(process)
    os.close(r)
    os.close(w)
    return got


def reset_in(program, whole):
    """a connection that is reset after all of an input has come"""
    server = socket.create_server(("127.0.0.1", 0))
    client = socket.create_connection(server.getsockname())
    other, _ = server.accept()
    client.sendall(whole)
    process = start(program, stdin=other.fileno())
    wait_until_read(other.fileno())
    client.setsockopt(socket.SOL_SOCKET, socket.SO_LINGER, struct.pack("ii", 1, 0))
    client.close()
    got = finish(process)
    other.close()
    server.close()
    return got


def not_blocking_out(program, whole):
    """a full pipe that can't be waited for"""
    r, w = os.pipe()
    os.set_blocking(w, False)
    filled = 0
    try:
        while True:
            filled += os.write(w, b"." * 4096)
    except BlockingIOError:
        pass
    process = start(program, stdout=w)
    _, err = process.communicate(whole, timeout=SECONDS)
    os.close(w)
    rest = b""
    while True:
        piece = os.read(r, 65536)
        if not piece:
            break
        rest += piece
    os.close(r)
    return rest[filled:], err


def limited_out(program, whole, size):
    """a file that may have so many bytes"""

    def limit():
        signal.signal(signal.SIGXFSZ, signal.SIG_IGN)
        resource.setrlimit(resource.RLIMIT_FSIZE, (size, size))

    with tempfile.TemporaryFile() as file:
        _, err = start(program, stdout=file, before=limit).communicate(whole, timeout=SECONDS)
        file.seek(0)
        return file.read(), err


def try_program(program, whole, answers):
    def case(words):
        return "%s: %s" % (program, words)

    read_error = "standard input: %s"
    write_error = "standard output: %s"
    process = start(program)
    expect(case("whole input"), process.communicate(whole, timeout=SECONDS), answers, None)
    expect(case("small pieces"), in_pieces(program, whole, 7), answers, None)
    expect(case("single bytes"), in_pieces(program, whole[:64], 1), run(program, whole[:64]), None)

    again = os.strerror(11)
    seen = b"" if program == "check_table" else answers
    expect(case("no more to read, and no end"), not_blocking_in(program, whole), seen, read_error % again)
    expect(case("reset connection"), reset_in(program, whole), seen, read_error % os.strerror(104))
    folder = os.open(HERE, os.O_RDONLY)
    expect(case("a folder as input"), finish(start(program, stdin=folder)), b"", read_error % os.strerror(21))
    os.close(folder)
    closed = lambda fd: (lambda: os.close(fd))
    expect(case("closed input"), finish(start(program, stdin=subprocess.DEVNULL, before=closed(0))), b"", read_error % os.strerror(9))

    with tempfile.TemporaryFile() as file:
        file.write(whole)
        file.seek(0)
        process = start(program, stdin=file, stdout=subprocess.DEVNULL, before=closed(1))
        expect(case("closed output"), finish(process), b"", write_error % os.strerror(9))
        file.seek(0)
        with open("/dev/full", "wb") as full:
            expect(case("full disk"), finish(start(program, stdin=file, stdout=full)), b"", write_error % os.strerror(28))
        file.seek(0)
        process = start(program, stdin=file, stdout=subprocess.DEVNULL, before=lambda: (os.close(1), os.close(2)))
        expect(case("closed output and error"), finish(process), b"", None)
    expect(case("full pipe"), not_blocking_out(program, whole), b"", write_error % again)


def run(program, text):
    return start(program).communicate(text, timeout=SECONDS)[0]


for name, (whole, answers) in PROGRAMS.items():
    try_program(name, whole, answers)

# The end of a text that is too long need not be read; of one that is as long as may be, it must.
long_text = b"1" * 28673
for extra in (0, 1, 70000):
    process = start("check_table")
    expect("check_table: %d bytes" % (28673 + extra), process.communicate(long_text + b"1" * extra, timeout=SECONDS), TOO_LONG, None)
expect("check_table: 28673 bytes, and no end", not_blocking_in("check_table", long_text), TOO_LONG, None)
expect("check_table: 28672 bytes, and no end", not_blocking_in("check_table", long_text[1:]), b"", "standard input: " + os.strerror(11))

# A text that is too long for the desk is passed over, and calls go on after it.
for n in (28672, 28673, 28674, 200000):
    calls = b"load %d\n" % n + b"1" * n + b"\ndrop\n"
    number = 2 if n <= 28672 else 1
    got = start("desk_calls").communicate(calls, timeout=SECONDS)
    expect("desk_calls: load %d" % n, got, b"turned down %d\nturned down 11\n" % number, None)

# The line of a measure is written in pieces: in as many places as there may be; where it can't be written in full; and in one place more.
most = 131072
calls = LOAD + b"measure %d\ndrop\n" % most
answers = b"load 0\nmeasure" + b" 0" * 4 + b" 1" * 4 + b" 0" * 4 + b" 65535" * (most - 12) + b"\ndrop 0\n"
expect("desk_calls: measure %d" % most, start("desk_calls").communicate(calls, timeout=SECONDS), answers, None)
for size in (10, 100000, len(answers) - len(b"\ndrop 0\n")):
    got = limited_out("desk_calls", calls, size)
    expect("desk_calls: measure %d, in %d bytes" % (most, size), got, answers[:size], "standard output: " + os.strerror(27))
got = start("desk_calls").communicate(LOAD + b"measure %d\ndrop\n" % (most + 1), timeout=SECONDS)
expect("desk_calls: measure %d" % (most + 1), got, b"load 0\nline 2: no room for so many places\n", None)

# An answer comes before the next call is read; after a write that fails no more calls are made.
process = start("desk_calls")
for call, answer in ((b"drop\n", b"turned down 11\n"), (b"verdict\n", b"turned down 11\n")):
    process.stdin.write(call)
    process.stdin.flush()
    ready, _, _ = select.select([process.stdout], [], [], SECONDS)
    got = os.read(process.stdout.fileno(), 100) if ready else b""
    if got != answer:
        failures += 1
        print("streams: desk_calls: an answer at once: %r" % got)
expect("desk_calls: answers at once", finish(process), b"", None)

if failures:
    print("streams: %d differences" % failures)
    sys.exit(1)
print("streams: check_table and desk_calls tell what can't be read or written")
