"""What tests/commands, tests/watch and tests/send share: running a command as its users do, comparing what it says, the examples
built, a copy of the repository; a program that runs, and a serial port for it."""

import contextlib
import fcntl
import os
import pty
import resource
import select
import shutil
import signal
import subprocess
import sys
import termios
import time
from pathlib import Path

TOP = Path(__file__).resolve().parent.parent
NOBODY = 65534
SECONDS = 120
BUILDING = 3600  # seconds that a call may take which builds what rt hasn't kept
PATIENCE = 120  # seconds that a line, an end or a setting may take, however busy the machine is; none of them takes so long

IFLAG, OFLAG, CFLAG, LFLAG, ISPEED, OSPEED, CC = range(7)
SIGNALS = (signal.SIGHUP, signal.SIGINT, signal.SIGQUIT, signal.SIGTERM)

results = {True: 0, False: 0}


def verdict(name, holds, seen=""):
    results[bool(holds)] += 1
    print(f"ok: {name}" if holds else f"FAILED: {name}: {seen}")


def run(command, timeout=SECONDS, **how):
    """A command's status, output and messages, whatever the terminal's own standard input is."""
    words = [str(word) for word in command]
    if "input" not in how:
        how.setdefault("stdin", subprocess.DEVNULL)
    how.setdefault("stdout", subprocess.PIPE)
    try:
        return subprocess.run(words, stderr=subprocess.PIPE, timeout=timeout, **how)
    except subprocess.TimeoutExpired:
        return subprocess.CompletedProcess(words, None, b"", b"it didn't end")


def expect(name, answer, status, output=b"", said="", reason=""):
    """said: how the one line on standard error begins, or nothing where it must be empty; reason: what stands in it."""
    lines = answer.stderr.decode().splitlines()
    told = lines == [] if said == "" else len(lines) == 1 and lines[0].startswith(said) and reason in lines[0]
    written = answer.stdout is None or answer.stdout == output
    verdict(name, (answer.returncode, told, written) == (status, True, True), f"status {answer.returncode}, {lines}, {len(answer.stdout or b'')} bytes")


def stop_without(*tools):
    """Ends the test if a tool is missing. Rust's are found where its installer puts them."""
    os.environ["PATH"] += f":{Path.home() / '.cargo/bin'}"
    missing = [tool for tool in tools if not shutil.which(tool)]
    if missing:
        sys.exit(print(f"{Path(sys.argv[0]).name}: missing: {' '.join(missing)}") or 2)


def built(name, made, *parts):
    """The script, if there is one, and its two examples, by name, with what ./build makes of those parts."""
    c = made / f"{name}-c"
    gcc = ["gcc", "-std=c99", "-Iinclude", f"examples/{name}.c", "target/staticlib/libvbus.a", "-o", c]
    cargo = ["cargo", "build", "--quiet", "--release", "--offline", "--manifest-path", "rust/Cargo.toml", "-p", "vbus", "--example", name]
    for command in (["./build", *parts], gcc, cargo):
        done = run(command, timeout=None, cwd=TOP)
        if done.returncode != 0:
            sys.exit(print(f"{Path(sys.argv[0]).name}: {command[0]} failed:\n{done.stderr.decode()}") or 2)
    rust = Path(os.environ.get("CARGO_TARGET_DIR", TOP / "rust/target")) / "release/examples" / name
    script = {name: TOP / name} if (TOP / name).exists() else {}
    return {**script, f"{name}.c": c, f"{name}.rs": rust}


def copied(made):
    """The repository and what ./build made, without rt's own work: rt begins with what it kept here. For everyone to read."""
    left_out = {TOP: {".git"}, TOP / "rust": {"target"}, **{crate: {"out"} for crate in (TOP / "crates").iterdir()}}
    shutil.copytree(TOP, made / "copy", ignore=lambda folder, _: left_out.get(Path(folder), set()))
    run(["chmod", "-R", "a+rX", made])
    return made / "copy"


def tools_without(made, *missing):
    """A folder with every tool that the scripts call but those."""
    folder = made / f"without-{'-'.join(missing)}"
    folder.mkdir()
    for tool in "sh sed dirname basename readlink find head tail tee mkdir touch date grep rm mktemp cat cp mv cmp flock rt python3 gcc g++ nm cargo pkg-config".split():
        where = shutil.which(tool)
        if tool not in missing and where:
            (folder / tool).symlink_to(where)
    return {"PATH": str(folder), "HOME": str(made)}


def as_nobody():
    """Someone who may neither write nor read what is root's; another user may not what the modes forbid."""
    return {"user": NOBODY, "group": NOBODY, "extra_groups": []} if os.getuid() == 0 else {}


# A program that runs, and what it reads or writes


def until(holds):
    """Whether it holds within PATIENCE."""
    end = time.monotonic() + PATIENCE
    while not holds():
        if time.monotonic() > end:
            return False
        time.sleep(0.005)
    return True


def apart(ignored):
    """Before a program starts: a process group of its own, and just those signals ignored, whatever this test's caller ignores."""
    with contextlib.suppress(PermissionError):  # a session of its own has one
        os.setpgid(0, 0)
    for number in SIGNALS:
        signal.signal(number, signal.SIG_IGN if number in ignored else signal.SIG_DFL)
    resource.setrlimit(resource.RLIMIT_CORE, (0, 0))  # SIGQUIT would leave a file


def sender(descriptor):
    """Sends a chunk, and tells whether it was taken in time."""
    os.set_blocking(descriptor, False)

    def send(chunk):
        rest = chunk

        def all_sent():
            nonlocal rest
            with contextlib.suppress(BlockingIOError):
                rest = rest[os.write(descriptor, rest) :]
            return rest == b""

        try:
            return until(all_sent)
        except OSError:  # nobody reads any more
            return False

    return send


class Running:
    """A program that runs, and what it has written so far."""

    def __init__(self, words, ignored=(), **how):
        how = {"stdin": subprocess.DEVNULL, "stdout": subprocess.PIPE, **how}
        self.process = subprocess.Popen([str(word) for word in words], stderr=subprocess.PIPE, preexec_fn=lambda: apart(ignored), **how)
        self.output = b""

    def reads(self, due):
        """Whether just that is there in time."""
        end = time.monotonic() + PATIENCE
        while len(self.output) < len(due):
            if not select.select([self.process.stdout], [], [], max(0, end - time.monotonic()))[0]:
                break
            more = os.read(self.process.stdout.fileno(), 65536)
            if more == b"":
                break
            self.output += more
        return self.output == due

    def ended(self):
        """The answer, as run() gives it; what doesn't end, the program or another that it began, is ended."""
        try:
            output, said = self.process.communicate(timeout=PATIENCE)
        except subprocess.TimeoutExpired:
            output, said = self.stop()
            said += b"it didn't end\n"
        return subprocess.CompletedProcess([], self.process.returncode, None if output is None else self.output + output, said)

    def stop(self):
        if self.process.returncode is None:  # else the number may be another's by now
            with contextlib.suppress(ProcessLookupError):
                os.killpg(self.process.pid, signal.SIGKILL)
        return self.process.communicate()


class Port:
    """A pseudo-terminal: the bus is its master, the serial port its slave."""

    def __init__(self):
        self.bus, self.port = pty.openpty()
        self.send = sender(self.bus)
        self.name = os.ttyname(self.port)
        # unlike what a bus needs, in each field that a pseudo-terminal lets be set
        settings = termios.tcgetattr(self.port)
        settings[IFLAG] |= termios.ICRNL | termios.IXON | termios.IXOFF | termios.ISTRIP | termios.BRKINT
        settings[LFLAG] |= termios.ICANON | termios.ISIG | termios.ECHO | termios.IEXTEN
        settings[CFLAG] = settings[CFLAG] & ~termios.CLOCAL | termios.CSTOPB | termios.CRTSCTS
        settings[ISPEED] = settings[OSPEED] = termios.B1200
        settings[CC][termios.VMIN], settings[CC][termios.VTIME] = b"\x07", b"\x03"
        termios.tcsetattr(self.port, termios.TCSANOW, settings)
        self.former = self.settings()

    def settings(self):
        return termios.tcgetattr(self.port)

    def right(self):
        """9600 8N1 and raw."""
        now = self.settings()
        wanted = termios.CS8 | termios.CREAD | termios.CLOCAL
        looked_at = termios.CSIZE | termios.CREAD | termios.CLOCAL | termios.CSTOPB | termios.PARENB | termios.CRTSCTS
        flags = (now[IFLAG], now[OFLAG] & termios.OPOST, now[LFLAG], now[CFLAG] & looked_at)
        rest = (now[ISPEED], now[OSPEED], now[CC][termios.VMIN], now[CC][termios.VTIME])
        return flags == (0, 0, 0, wanted) and rest == (termios.B9600, termios.B9600, 1, 0)

    def set_by_user(self):
        """As `stty raw` does, for the program that can't."""
        settings = self.settings()
        settings[IFLAG] = settings[OFLAG] = settings[LFLAG] = 0
        settings[CC][termios.VMIN], settings[CC][termios.VTIME] = b"\x01", b"\x00"
        termios.tcsetattr(self.port, termios.TCSANOW, settings)

    def waiting(self):
        """Bytes that arrived and aren't read yet."""
        return int.from_bytes(fcntl.ioctl(self.port, termios.FIONREAD, bytes(4)), sys.byteorder)

    def vanish(self):
        os.close(self.bus)
        self.bus = None

    def close(self):
        for descriptor in (self.bus, self.port):
            if descriptor is not None:
                os.close(descriptor)


def opened(pid, name):
    with contextlib.suppress(OSError):
        return any(os.readlink(link) == name for link in Path(f"/proc/{pid}/fd").iterdir())
    return False


INCLUDES = "#define _GNU_SOURCE\n" + "".join(f"#include <{name}.h>\n" for name in ("errno", "fcntl", "sys/syscall", "termios", "unistd"))


def stand_in(made, name, source):
    """The environment for a program that gets the system's answers from this C source, before the C library's."""
    library = made / f"{name}.so"
    done = run(["gcc", "-shared", "-fPIC", "-x", "c", "-", "-o", library], input=(INCLUDES + source).encode())
    assert done.returncode == 0, done.stderr.decode()
    return {**os.environ, "LD_PRELOAD": str(library)}


def ended():
    """The last line, and the exit status."""
    print(f"{results[True]} passed, {results[False]} failed")
    return 1 if results[False] else 0
