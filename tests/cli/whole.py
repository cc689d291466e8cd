"""Half a listing never counts as a whole one: outputs that fill up, close, do not wait or lose their reader."""
import os
import resource
import select
import shutil
import signal
import socket
import subprocess
import threading

import model
from commands import COMMANDS, LIST, REPLAY
from door import PATIENCE, Live, below, play, processes, program_of, run, terminal, wait_for


def all_outputs(test, door, programs, room):
    """The front door, the folder of the programs, and a folder for files."""
    for command in COMMANDS:
        place = room / f"outputs of {command.name}"
        place.mkdir()
        program = programs / command.program
        failing(test, door, command, place)
        full_disk(test, door, command, place)
        full_room(test, door, command, place)
        no_temporary_files(test, door, command, place)
        not_waiting(test, door, command, program, place)
        no_reader(test, door, command, place)
        failing_reads(test, door, command)
        alone(test, command, program)
    unsteady(test, programs, room)


def failing(test, door, command, room):
    for name, words, more in command.both_ways(door, room, command.one):
        with open("/dev/full", "wb") as full:
            found = run(words, stdout=full, **more)
        right = found.is_refusal("standard output", "No space left on device", status=1)
        test(f"{name}, standard output is full", right, str(found))
        with open(os.devnull, "rb") as null:
            found = run(words, stdout=null, **more)
        right = found.is_refusal("standard output", "Bad file descriptor", status=1)
        test(f"{name}, standard output cannot be written", right, str(found))
        found = run(["sh", "-c", '"$@" >&-', "sh", *words], **more)
        right = found.is_refusal("standard output", "Bad file descriptor", status=1)
        test(f"{name}, standard output is closed", right, str(found))
        found = run(["sh", "-c", '"$@" >&- 2>&-', "sh", *words], **more)
        right = (found.status, found.out, found.err) == (1, b"", b"")
        test(f"{name}, standard error is closed too", right, str(found))


def is_front(found, whole):
    return whole.startswith(found) and len(found) < len(whole)


def full_disk(test, door, command, room):
    """A file that may not grow any more, in the middle of the listing or of its last line."""
    for what, data, size in [
        ("an output that may not grow", command.many, 100000),
        ("an output with no room for the end of the last line", command.one, len(command.listing(command.one)) - 1),
    ]:
        for name, words, more in command.both_ways(door, room, data):
            outgrows(test, f"{name}, {what}", words, more, command.listing(data)[:size], room)


def outgrows(test, name, words, more, expected, room):
    """An output that holds no more than it should, whether or not the signal for that is ignored."""
    for what, action in [("", signal.SIG_DFL), (", the signal ignored", signal.SIG_IGN)]:

        def limit(action=action):
            signal.signal(signal.SIGXFSZ, action)
            resource.setrlimit(resource.RLIMIT_FSIZE, (len(expected), len(expected)))

        with open(room / "grown", "wb") as out:
            found = run(words, stdout=out, preexec_fn=limit, restore_signals=False, **more)
        listed = (room / "grown").read_bytes()
        right = found.is_refusal("standard output", "File too large", status=1) and listed == expected
        test(f"{name}{what}", right, f"{found}, {len(listed)} bytes listed")


def full_room(test, door, command, room):
    """A file system that fills up, where one can be mounted."""
    place = room / "small"
    place.mkdir()
    mounts = shutil.which("mount") and run(["mount", "-t", "tmpfs", "-o", "size=64k", "none", place]).status == 0
    if not mounts:
        return
    try:
        expected, env = command.listing(command.many), os.environ | {"TMPDIR": str(place)}
        for name, words, more in command.both_ways(door, room, command.many):
            with open(place / "listing", "wb") as out:
                found = run(words, stdout=out, env=env, **more)
            listed = (place / "listing").read_bytes()
            right = found.is_refusal("standard output", "No space left on device", status=1)
            right = right and is_front(listed, expected)
            test(f"{name}, a full file system", right, f"{found}, {len(listed)} bytes listed")
        # It is full now, so that a message kept in a file would be lost.
        right = fails_to_read(door, command, room, env)
        test(f"{command.name}, a failed read, with no room for temporary files", right)
    finally:
        subprocess.run(["umount", place], check=False)


def fails_to_read(door, command, folder, env):
    """Whether a standard input that cannot be read gives the heading, and one line on standard error."""
    opened = os.open(folder, os.O_RDONLY)
    try:
        found = run([door, command.name], stdin=opened, env=env)
    finally:
        os.close(opened)
    return found.is_refusal("standard input", "Is a directory", status=1, out=command.heading)


def no_temporary_files(test, door, command, room):
    for what, folder in [("no folder", room / "lost"), ("no folder but a device", "/dev/full")]:
        env = os.environ | {"TMPDIR": str(folder)}
        for name, words, more in command.both_ways(door, room, command.one):
            found = run(words, env=env, **more)
            test(f"{name}, TMPDIR is {what}", found.is_quiet(command.listing(command.one)), str(found))
        test(f"{command.name}, TMPDIR is {what}, a failed read", fails_to_read(door, command, room, env))


# Outputs that do not wait.


def not_waiting(test, door, command, program, room):
    for name, words, more in command.both_ways(door, room, command.many):
        drained(test, f"{name}, a pipe that does not wait", os.pipe(), words, more, command, sleeps=True)
    more, words = {"data": command.many}, [door, command.name]
    master, slave, _ = terminal(raw=True)
    name = f"{command.name}, a terminal that does not wait"
    drained(test, name, (master, slave), words, more, command, sleeps=True)
    drained(test, f"{program.name} alone, a pipe that does not wait", os.pipe(), [program], more, command)
    for name, words in [(command.name, words), (f"{program.name} alone", [program])]:
        ends = [end.detach() for end in socket.socketpair()]
        drained(test, f"{name}, a socket that does not wait", ends, words, more, command)


def drained(test, name, ends, words, more, command, sleeps=False):
    """The output is full before anything is read from it; the program waits by itself, or sleeps meanwhile."""
    expected, (ours, theirs) = command.listing(command.many), ends
    os.set_blocking(theirs, False)
    with open(ours, "rb", buffering=0) as reader:
        data = more.get("data")
        given = subprocess.PIPE if data is not None else subprocess.DEVNULL
        process = subprocess.Popen(words, stdin=given, stdout=theirs, stderr=subprocess.PIPE)
        feeder = threading.Thread(target=feed, args=(process.stdin, data), daemon=True)
        feeder.start()
        full = wait_for(lambda: not select.select([], [theirs], [], 0)[1])
        os.close(theirs)
        if sleeps:
            program = program_of(process.pid, command.program)
            test(f"{name}, the program sleeps", wait_for(lambda: is_asleep(program)))
        found = b"".join(iter(lambda: read_some(reader), b""))
        said, status = process.stderr.read(), process.wait(PATIENCE)
        process.stderr.close()
        feeder.join(PATIENCE)
    right = full and (status, said) == (0, b"") and found == expected
    test(name, right, f"full: {full}, status {status}, standard error {said!r}, {len(found)} of {len(expected)} bytes")


def is_asleep(pid):
    return any(fields[0] == "S" for process, fields in processes() if process == pid)


def read_some(reader):
    """Empty at the end, which is an error where it is a terminal."""
    try:
        return reader.read(65536)
    except OSError:
        return b""


def feed(file, data):
    if file:
        try:
            file.write(data)
            file.close()
        except OSError:
            pass


# A reader that went away.


def no_reader(test, door, command, room):
    script = '{ "$@"; echo "status $?" >&2; } | head -n 1'
    for name, words, more in command.both_ways(door, room, command.many):
        for what, action in [("", signal.SIG_DFL), (", the signal ignored", signal.SIG_IGN)]:

            def sets(action=action):
                signal.signal(signal.SIGPIPE, action)

            ours, theirs = os.pipe()
            os.close(ours)
            with open(theirs, "wb") as gone:
                found = run(words, stdout=gone, preexec_fn=sets, restore_signals=False, **more)
            test(f"{name}, the reader went away{what}", (found.status, found.err) == (141, b""), str(found))
        found = run(["sh", "-c", script, "sh", *words], **more)
        test(f"{name}, head -n 1", (found.out, found.err) == (command.heading, b"status 141\n"), str(found))


# Reads that fail.


def failing_reads(test, door, command):
    """Where the relay cannot read on, no last line comes."""
    ours, theirs = os.pipe()
    os.set_blocking(ours, False)
    found = run([door, command.name], stdin=ours)
    # The heading may be written by then.
    right = found.out in (b"", command.heading)
    right = right and found.is_refusal("standard input", "Resource temporarily unavailable", status=1, out=found.out)
    test(f"{command.name}, standard input does not wait", right, str(found))
    os.close(ours)
    os.close(theirs)
    relay_killed(test, door, command)


def relay_killed(test, door, command):
    """Somebody, or the system for want of memory, ends the relay's reader: that is not the input's end."""
    for what, data in [("nothing read", b""), ("one and a half read", command.one + command.half)]:
        lines = command.listing(command.one).decode().splitlines()[: 2 if data else 1]
        with Live([door, command.name]) as live:
            wrong = play(live, [(data, lines)])
            os.kill(below(live.process.pid, "cat"), signal.SIGKILL)
            found = live.ended()
            right = not wrong and found.is_refusal("standard input", status=1)
            test(f"{command.name}, {what}, the relay's reader is killed", right, wrong or str(found))


# The programs without the front door.


def alone(test, command, program):
    expected = command.listing(command.one)
    found = run([program], data=command.one)
    test(f"{program.name} alone", found.is_quiet(expected), str(found))
    found = run([program, "marked"], data=command.one)
    test(f"{program.name} alone marks its end", (found.out, found.err) == (expected, b"whole\n"), str(found))
    for words in ([program], [program, "marked"]):
        name = f"{program.name} alone with {len(words) - 1} words"
        with open("/dev/full", "wb") as full:
            found = run(words, data=command.one, stdout=full)
        test(f"{name}, full", found.err == b"standard output: No space left on device\n", str(found))
        found = run(["sh", "-c", '"$@" >&-', "sh", *words], data=command.one)
        test(f"{name}, closed", found.err == b"standard output: Bad file descriptor\n", str(found))
    ours, theirs = os.pipe()
    os.set_blocking(ours, False)
    heading, line, *last = expected.splitlines(True)
    with Live([program, "marked"], wire=theirs, stdin=ours) as live:
        os.close(ours)
        wrong = play(live, [(b"", [heading.decode().strip()]), (command.one, [line.decode().strip()])])
        live.close_wire()
        found = live.ended()
        right = not wrong and (found.out, found.err) == (b"".join(last), b"whole\n")
        test(f"{program.name} alone, a standard input that does not wait", right, wrong or str(found))


def unsteady(test, programs, room):
    """Calls that are interrupted, must wait, or move a few bytes only."""
    source = os.path.join(os.path.dirname(__file__), "unsteady.c")
    compiler = next(filter(shutil.which, ["cc", "gcc", "clang"]), None)
    command = [compiler, "-w", "-shared", "-fPIC", "-o", room / "unsteady.so", source, "-ldl"]
    built = compiler and run(command)
    if not built or built.status != 0:
        test("a library of unsteady calls is built", False, str(built or "there is no C compiler"))
        return
    frames = model.wire(5, 2, bytes(range(256))) * 50
    records = [model.record(turn % 2, frames) for turn in range(3)]
    for command, data, mark in [
        (LIST, frames + b"\xff\xff\x00", b"whole"),
        (REPLAY, model.HEAD + b"".join(records), b"whole"),
        (REPLAY, model.HEAD + b"".join(records)[:-1], b"refused"),
    ]:
        is_steady(test, command, programs / command.program, data, mark, room / "unsteady.so")


def is_steady(test, command, program, data, mark, library):
    found = run([program, "marked"], data=data, env=os.environ | {"LD_PRELOAD": str(library)})
    words = found.err.splitlines()
    right = found.out == command.listing(data) and words[:1] == [mark] and len(words) == 2
    faults = int(words[-1].split()[0]) if right else 0
    test(f"{program.name}, {mark.decode()}: interrupted calls go on", right and faults > 1000, str(found))
