#!/usr/bin/env python3
"""Runs the command program on what no vector can show: files that can't be read or written, and what stays of an older guest.

  guestdt_check.py BINARY [HOST]

HOST is the bench tree (default: trees/bench.dtb beside tools/). Each check gets a folder of its own. Where this runs as root the
program runs as nobody, since nothing is unwritable to root. Prints a line for each fault, and at last 'N checks, M faults'.
"""
import os
import pwd
import resource
import shutil
import signal
import subprocess
import sys
import tempfile
import time

ROOT = os.path.dirname(os.path.dirname(os.path.abspath(__file__)))
REQUEST = b"c /soc/uart@100\n"
ANSWER = b"paths 3\n/soc/uart@100\n/clk\n/pd\nguest 254\n"
SIZE = 254
OLD = b"an older guest, longer than the new one. " * 20
CEILING = 65536

USER = pwd.getpwnam("nobody").pw_uid if os.geteuid() == 0 else None
checks = faults = 0


class Bench:
    """A folder with a copy of the program beside it, and files that the check names."""

    def __init__(self, base, binary, files):
        self.base = tempfile.mkdtemp(dir=base)
        self.dir = os.path.join(self.base, "work")
        self.binary = binary
        os.mkdir(self.dir)
        for name, content in files.items():
            with open(self.path(name), "wb") as f:
                f.write(content)
        self.own()

    def path(self, name):
        return os.path.join(self.dir, name)

    def own(self):
        if USER is not None:
            os.chmod(self.base, 0o755)
            for d, _, names in os.walk(self.base):
                os.chown(d, USER, -1)
                for n in names:
                    os.chown(os.path.join(d, n), USER, -1, follow_symlinks=False)

    def start(self, **words):
        if USER is not None:
            words["user"] = USER
        words.setdefault("stdin", subprocess.PIPE)
        words.setdefault("stdout", subprocess.PIPE)
        words.setdefault("stderr", subprocess.PIPE)
        return subprocess.Popen([self.binary], cwd=self.dir, **words)

    def run(self, request=REQUEST, **words):
        p = self.start(**words)
        out, err = p.communicate(request if p.stdin else None, timeout=60)
        return p.returncode, out, err

    def read(self, name):
        with open(self.path(name), "rb") as f:
            return f.read()

    def names(self):
        return sorted(os.listdir(self.dir))


def check(what, *tests):
    """One check: its name, and pairs of what was seen and what is right."""
    global checks, faults
    checks += 1
    bad = [(seen, right) for seen, right in tests if seen != right]
    if bad:
        faults += 1
        print(f"{what}:")
        for seen, right in bad:
            print(f"  seen  {seen!r}"[:300])
            print(f"  right {right!r}"[:300])


def said(err, text):
    """Whether standard error is one line that begins so and then gives a reason."""
    return err.startswith(text + b": ") and err.endswith(b"\n") and len(err) > len(text) + 4


def main():
    if len(sys.argv) not in (2, 3):
        sys.exit(__doc__)
    host_name = sys.argv[2] if len(sys.argv) == 3 else os.path.join(ROOT, "trees", "bench.dtb")
    with open(host_name, "rb") as f:
        host = f.read()
    base = tempfile.mkdtemp()
    os.chmod(base, 0o755)
    binary = os.path.join(base, "guestdt")
    shutil.copy(sys.argv[1], binary)
    os.chmod(binary, 0o755)

    def bench(**files):
        return Bench(base, binary, {name.replace("_", "."): content for name, content in files.items()})

    try:
        written(bench, host)
        unwritten(bench, host)
        refused(bench, host)
        streams(bench, host)
        together(bench, host)
    finally:
        for d, _, _ in os.walk(base):
            os.chmod(d, 0o755)
        shutil.rmtree(base)
    print(f"{checks} checks, {faults} faults")
    sys.exit(1 if faults else 0)


# ---- a guest that is written

def written(bench, host):
    b = bench(host_dtb=host)
    check("a guest is written", (b.run(), (0, ANSWER, b"")), (b.names(), ["guest.dtb", "host.dtb"]), (len(b.read("guest.dtb")), SIZE))
    guest = b.read("guest.dtb")

    b = bench(host_dtb=host, guest_dtb=OLD)
    check("an older guest is replaced whole", (b.run(), (0, ANSWER, b"")), (b.read("guest.dtb"), guest), (b.names(), ["guest.dtb", "host.dtb"]))

    b = bench(host_dtb=host, guest_dtb=OLD)
    os.link(b.path("guest.dtb"), b.path("kept"))
    check("it is replaced, not written over", (b.run(), (0, ANSWER, b"")), (b.read("guest.dtb"), guest), (b.read("kept"), OLD))

    b = bench(host_dtb=host, target=OLD)
    os.symlink("target", b.path("guest.dtb"))
    b.own()
    check("a link is replaced, and what it names stays", (b.run(), (0, ANSWER, b"")), (b.read("guest.dtb"), guest), (b.read("target"), OLD), (os.path.islink(b.path("guest.dtb")), False))

    b = bench(host_dtb=host, guest_dtb=OLD)
    os.chmod(b.path("guest.dtb"), 0o444)
    check("a read-only guest in a writable folder is replaced", (b.run(), (0, ANSWER, b"")), (b.read("guest.dtb"), guest))

    b = bench(**{"host_dtb": host, "guest_dtb_00": b"other", "guest_dtb_01": b"other"})
    check("names that are taken are left alone", (b.run(), (0, ANSWER, b"")), (b.read("guest.dtb.00"), b"other"), (b.read("guest.dtb.01"), b"other"), (b.names(), ["guest.dtb", "guest.dtb.00", "guest.dtb.01", "host.dtb"]))

    b = bench(host_dtb=host)
    check("the umask counts", (b.run(umask=0o027), (0, ANSWER, b"")), (oct(os.stat(b.path("guest.dtb")).st_mode & 0o777), oct(0o640)))

    b = bench(host_dtb=host + bytes(CEILING - len(host)))
    check("a host of 65,536 bytes is handled", (b.run(), (0, ANSWER, b"")), (b.read("guest.dtb"), guest))

    b = bench(host_dtb=host)
    check("the last line may lack its newline", (b.run(REQUEST[:-1]), (0, ANSWER, b"")), (b.read("guest.dtb"), guest))


# ---- a guest that can't be written

def unwritten(bench, host):
    def stays(what, b, names, reason=None, **words):
        code, out, err = b.run(**words)
        check(what, (out, b""), (said(err, b"cannot write guest.dtb"), True), (err if reason else None, b"cannot write guest.dtb: " + reason + b"\n" if reason else None), (b.names(), names))

    b = bench(host_dtb=host)
    os.chmod(b.dir, 0o555)
    stays("an unwritable folder", b, ["host.dtb"], b"Permission denied")

    b = bench(host_dtb=host, guest_dtb=OLD)
    os.chmod(b.dir, 0o555)
    stays("an unwritable folder with an older guest", b, ["guest.dtb", "host.dtb"], b"Permission denied")
    check("that guest stays", (b.read("guest.dtb"), OLD))

    b = bench(host_dtb=host)
    os.mkdir(b.path("guest.dtb"))
    b.own()
    stays("guest.dtb is a folder", b, ["guest.dtb", "host.dtb"])

    b = bench(**{"host_dtb": host, "guest_dtb": OLD}, **{f"guest_dtb_{i:02}": b"other" for i in range(100)})
    stays("all names are taken", b, b.names(), b"File exists")
    check("the older guest stays", (b.read("guest.dtb"), OLD))

    def limited():
        signal.signal(signal.SIGXFSZ, signal.SIG_IGN)
        resource.setrlimit(resource.RLIMIT_FSIZE, (100, 100))

    b = bench(host_dtb=host, guest_dtb=OLD)
    stays("no room for all of the guest", b, ["guest.dtb", "host.dtb"], b"File too large", preexec_fn=limited)
    check("the older guest stays there too", (b.read("guest.dtb"), OLD))

    def killed():
        signal.signal(signal.SIGXFSZ, signal.SIG_DFL)
        resource.setrlimit(resource.RLIMIT_FSIZE, (100, 100))
        resource.setrlimit(resource.RLIMIT_CORE, (0, 0))

    b = bench(host_dtb=host, guest_dtb=OLD)
    code, out, err = b.run(preexec_fn=killed)
    check("ended while it writes", (code, -signal.SIGXFSZ), (out, b""), (b.read("guest.dtb"), OLD))


# ---- refusals: only a line, and the folder stays as it was

def refused(bench, host):
    def line(what, b, text, request=REQUEST):
        names = b.names()
        check(what, (b.run(request), (0, text, b"")), (b.names(), names), (b.read("guest.dtb") if "guest.dtb" in names else OLD, OLD))

    line("no host", bench(), b"refused 1 at 0\n")
    line("no host, and an older guest", bench(guest_dtb=OLD), b"refused 1 at 0\n")
    line("an empty host", bench(host_dtb=b"", guest_dtb=OLD), b"refused 1 at 0\n")

    b = bench(guest_dtb=OLD)
    os.mkdir(b.path("host.dtb"))
    b.own()
    line("the host is a folder", b, b"refused 1 at 0\n")

    b = bench(host_dtb=host, guest_dtb=OLD)
    os.chmod(b.path("host.dtb"), 0)
    line("a host that may not be read", b, b"refused 1 at 0\n")

    b = bench(guest_dtb=OLD)
    os.symlink("host.dtb", b.path("host.dtb"))
    b.own()
    line("the host is a link to itself", b, b"refused 1 at 0\n")

    long = host + bytes(CEILING + 1 - len(host))
    line("a host of 65,537 bytes", bench(host_dtb=long, guest_dtb=OLD), b"refused 3 at 0\n")
    line("a host of a million bytes", bench(host_dtb=host + bytes(10 ** 6), guest_dtb=OLD), b"refused 3 at 0\n")
    line("a line fault, and no host", bench(guest_dtb=OLD), b"refused 41 at 0\n", b"c\n")
    line("a line fault, and a long host", bench(host_dtb=long, guest_dtb=OLD), b"refused 41 at 16\n", REQUEST + b"?\n")
    line("an input of 65,537 bytes", bench(host_dtb=host, guest_dtb=OLD), b"refused 41 at 65536\n", b"x /" + b"a" * (CEILING - 2))
    line("an input of 65,537 bytes, its first line at fault", bench(host_dtb=host, guest_dtb=OLD), b"refused 41 at 65536\n", b"?" * (CEILING + 1))
    line("an input of 65,536 bytes, its first line at fault", bench(host_dtb=host, guest_dtb=OLD), b"refused 41 at 0\n", b"?" * CEILING)
    line("an input of a million bytes", bench(host_dtb=host, guest_dtb=OLD), b"refused 41 at 65536\n", REQUEST * 62500)

    b = bench(guest_dtb=OLD)
    os.chmod(b.dir, 0o555)
    line("a refusal in an unwritable folder", b, b"refused 1 at 0\n")


# ---- standard input, output and error

def streams(bench, host):
    guest = SIZE

    def without(fd):
        return lambda: os.close(fd)

    b = bench(host_dtb=host, guest_dtb=OLD)
    code, out, err = b.run(preexec_fn=without(1), stdout=None)
    check("no standard output", (said(err, b"cannot print"), True), (len(b.read("guest.dtb")), guest), (b.names(), ["guest.dtb", "host.dtb"]))

    b = bench(guest_dtb=OLD)
    code, out, err = b.run(preexec_fn=without(1), stdout=None)
    check("no standard output for a refusal", (said(err, b"cannot print"), True), (b.read("guest.dtb"), OLD), (b.names(), ["guest.dtb"]))

    b = bench(host_dtb=host, guest_dtb=OLD)
    with open("/dev/full", "wb") as full:
        code, out, err = b.run(stdout=full)
    check("standard output is full", (err, b"cannot print: No space left on device\n"), (len(b.read("guest.dtb")), guest))

    b = bench(host_dtb=host, guest_dtb=OLD)
    read, write = os.pipe()
    os.close(read)
    code, out, err = b.run(stdout=write)
    os.close(write)
    check("nobody reads standard output", (code in (0, -signal.SIGPIPE), True), (len(b.read("guest.dtb")), guest), (b.names(), ["guest.dtb", "host.dtb"]))

    b = bench(host_dtb=host, guest_dtb=OLD)
    code, out, err = b.run(preexec_fn=without(0), stdin=None)
    check("no standard input", (out, b""), (said(err, b"cannot read standard input"), True), (b.read("guest.dtb"), OLD), (b.names(), ["guest.dtb", "host.dtb"]))

    b = bench(host_dtb=host, guest_dtb=OLD)
    folder = os.open(b.dir, os.O_RDONLY)
    code, out, err = b.run(stdin=folder)
    os.close(folder)
    check("standard input is a folder", (out, b""), (said(err, b"cannot read standard input"), True), (b.read("guest.dtb"), OLD))

    b = bench(host_dtb=host, guest_dtb=OLD)
    os.chmod(b.dir, 0o555)
    code, out, err = b.run(preexec_fn=without(2), stderr=None)
    check("no standard error, and an unwritable folder", (out, b""), (b.read("guest.dtb"), OLD), (b.names(), ["guest.dtb", "host.dtb"]))

    b = bench(host_dtb=host, guest_dtb=OLD)
    code, out, err = b.run(preexec_fn=without(2), stderr=None)
    check("no standard error", (out, ANSWER), (len(b.read("guest.dtb")), guest))

    b = bench(host_dtb=host)
    p = b.start()
    for i in range(len(REQUEST)):
        p.stdin.write(REQUEST[i:i + 1])
        p.stdin.flush()
        time.sleep(0.002)
    out, err = p.communicate(timeout=60)
    check("an input that comes byte by byte", ((out, err), (ANSWER, b"")))

    b = bench()
    os.mkfifo(b.path("host.dtb"))
    b.own()
    p = b.start()
    p.stdin.write(REQUEST)
    p.stdin.close()
    p.stdin = None
    with open(b.path("host.dtb"), "wb", buffering=0) as f:
        for i in range(0, len(host), 7):
            f.write(host[i:i + 7])
            time.sleep(0.001)
    out, err = p.communicate(timeout=60)
    check("a host that comes in pieces", ((out, err), (ANSWER, b"")), (len(b.read("guest.dtb")), guest))


# ---- many at once: whoever reads the guest finds the older one or all of the new one

def together(bench, host):
    b = bench(host_dtb=host, guest_dtb=OLD)
    first = bench(host_dtb=host)
    first.run()
    guest = first.read("guest.dtb")
    started = [b.start() for _ in range(20)]
    for p in started:
        p.stdin.write(REQUEST)
        p.stdin.close()
        p.stdin = None
    strange = 0
    while any(p.poll() is None for p in started):
        strange += b.read("guest.dtb") not in (OLD, guest)
    answers = {p.communicate() for p in started}
    check("twenty at once", (answers, {(ANSWER, b"")}), (strange, 0), (b.read("guest.dtb"), guest), (b.names(), ["guest.dtb", "host.dtb"]))


main()
