#!/usr/bin/env python3
"""The program over the real machine: files, links, owners, limits, full disks, devices, pipes, and calls of the system that fail.

    edge.py PROGRAM

Each test runs in a folder of its own. Those of an ordinary user run as nobody where root runs them; those that make calls fail
or end the program at a call trace it (tracing.py). A test that can't run here is named in a line of its own; the last line is
'N passed, M failed, K skipped'.
"""
import collections
import errno
import os
import re
import resource
import shutil
import signal
import stat
import struct
import subprocess
import sys
import tempfile
import threading
import time
import traceback

import tracing

HERE = os.path.dirname(os.path.abspath(__file__))
NOBODY = 65534
SECONDS = 60
OLD = b"what stood here before\n" * 9
STORAGE = 3
# How many bytes four threads read, and how many go to the disk while they are written.
READ_BY_FOUR, SYNCED_BY_TWO = 16 << 20, 4 << 20

TESTS = []


def test(*needs):
    def listed(function):
        TESTS.append((function.__name__.replace("_", " "), needs, function))
        return function
    return listed


Ran = collections.namedtuple("Ran", "status out err")


class Room:
    """A folder with files to read, in which the program runs."""

    def __init__(self, program, folder):
        self.program, self.folder = program, folder
        os.makedirs(folder)
        os.chmod(folder, 0o777)
        for name in ("a.nc", "labels.nc"):
            shutil.copy(os.path.join(HERE, "..", "examples", name), folder)
        self.new = self.written("a.nc")
        self.other = self.written("labels.nc")

    def written(self, name):
        """The bytes that the program writes of this file."""
        ran = self.run(f'open_dataset("{name}").to_netcdf("first.nc")')
        assert ran == Ran(0, b"", b""), ran
        data = self.read("first.nc")
        os.remove(self.path("first.nc"))
        assert data.startswith(b"CDF"), data
        return data

    def path(self, *names):
        return os.path.join(self.folder, *names)

    def read(self, name):
        with open(self.path(name), "rb") as f:
            return f.read()

    def put(self, name, data=OLD, mode=0o644):
        with open(self.path(name), "wb") as f:
            f.write(data)
        os.chmod(self.path(name), mode)

    def script(self, text):
        with open(self.path("s.xrs"), "w") as f:
            f.write(text + "\n")
        return [self.program, "s.xrs"]

    def run(self, text, user=None, **how):
        if user and os.geteuid() == 0:
            how |= {"user": NOBODY, "group": NOBODY, "extra_groups": []}
        how = {"stdin": subprocess.DEVNULL, "stdout": subprocess.PIPE, "stderr": subprocess.PIPE, "timeout": SECONDS} | how
        ran = subprocess.run(self.script(text), cwd=self.folder, **how)
        return Ran(ran.returncode, ran.stdout, ran.stderr)

    def write(self, name, **how):
        return self.run(f'open_dataset("a.nc").to_netcdf("{name}")', **how)

    def owns(self, name):
        known = os.stat(self.path(name))
        return known.st_uid, known.st_gid, stat.S_IMODE(known.st_mode)

    def beside(self, *names):
        """What was left by writers."""
        return [name for name in os.listdir(self.path(*names)) if name.startswith(".xrs-")]

    def is_done(self, ran, name, folder=""):
        assert ran == Ran(0, b"", b""), ran
        assert self.read(name) == self.new
        assert not self.beside(folder), self.beside(folder)

    def is_refused(self, ran, name, folder=""):
        """The statement failed, and the name holds what it held."""
        failed(ran)
        if name:
            assert self.read(name) == OLD
        assert not self.beside(folder), self.beside(folder)


def failed(ran):
    assert ran.status == STORAGE and ran.out == b"" and ran.err == b"xrs: storage fault\n", ran


def many_cells(size):
    """A classic file of one variable with so many bytes of cells, of which no two quarters are alike."""
    header = b"CDF\x01" + struct.pack(">3i", 0, 10, 1) + struct.pack(">i", 1) + b"x\0\0\0" + struct.pack(">i", size)
    header += struct.pack(">2i", 0, 0) + struct.pack(">3i", 11, 1, 1) + b"v\0\0\0" + struct.pack(">2i", 1, 0) + struct.pack(">2i", 0, 0)
    header += struct.pack(">2i", 1, size)
    begin = len(header) + 4
    block = bytes(range(251)) * 4096
    cells = (block * (size // len(block) + 1))[:size]
    return header + struct.pack(">i", begin) + cells


# ---- whole files

@test()
def a_new_file_takes_the_place_of_the_old_one(room):
    room.put("b.nc")
    os.link(room.path("b.nc"), room.path("same"))
    before = os.stat(room.path("b.nc")).st_ino
    with open(room.path("b.nc"), "rb", buffering=0) as reader:
        start = reader.read(5)
        room.is_done(room.write("b.nc"), "b.nc")
        assert start + reader.read() == OLD, "it was written in place"
    assert os.stat(room.path("b.nc")).st_ino != before
    assert room.read("same") == OLD


@test()
def a_new_file_has_the_permissions_of_the_mask(room):
    for mask in (0o022, 0o027, 0o077, 0o000):
        room.is_done(room.write(f"{mask}.nc", umask=mask), f"{mask}.nc")
        assert room.owns(f"{mask}.nc")[2] == 0o666 & ~mask


@test()
def permissions_are_kept(room):
    for mode in (0o600, 0o640, 0o664, 0o666, 0o751, 0o4711, 0o2755):
        room.put("b.nc", mode=mode)
        room.is_done(room.write("b.nc", umask=0o077), "b.nc")
        # (the system itself takes these two away from a file that an ordinary user writes)
        wanted = mode if os.geteuid() == 0 else mode & 0o1777
        assert room.owns("b.nc")[2] == wanted, (oct(mode), room.owns("b.nc"))


@test("root")
def owner_and_group_are_kept(room):
    room.put("b.nc", mode=0o640)
    os.chown(room.path("b.nc"), 12345, 23456)
    room.is_done(room.write("b.nc"), "b.nc")
    assert room.owns("b.nc") == (12345, 23456, 0o640)


@test("root")
def an_ordinary_user_keeps_what_the_system_allows(room):
    # (of each file its owner, group and permissions before and after; a group that isn't the user's may then do what all may)
    for before, after in [((NOBODY, NOBODY, 0o640), (NOBODY, NOBODY, 0o640)), ((NOBODY, 0, 0o640), (NOBODY, NOBODY, 0o600)), ((0, 0, 0o666), (NOBODY, NOBODY, 0o666)),
                          ((0, 0, 0o676), (NOBODY, NOBODY, 0o666)), ((0, NOBODY, 0o664), (NOBODY, NOBODY, 0o664))]:
        room.put("b.nc")
        os.chown(room.path("b.nc"), *before[:2])
        os.chmod(room.path("b.nc"), before[2])
        room.is_done(room.write("b.nc", user=True), "b.nc")
        assert room.owns("b.nc") == after, (before, room.owns("b.nc"))
        os.remove(room.path("b.nc"))


@test("user")
def a_file_that_may_not_be_written_is_refused(room):
    room.put("b.nc", mode=0o444)
    if os.geteuid() == 0:
        os.chown(room.path("b.nc"), NOBODY, NOBODY)
    before = room.owns("b.nc")
    room.is_refused(room.write("b.nc", user=True), "b.nc")
    assert room.owns("b.nc") == before


@test("user")
def a_folder_that_may_not_be_written_keeps_its_files(room):
    os.mkdir(room.path("d"))
    room.put("d/b.nc", mode=0o666)
    os.chmod(room.path("d"), 0o555)
    room.is_refused(room.write("d/b.nc", user=True), "d/b.nc", "d")
    failed(room.write("d/c.nc", user=True))
    assert os.listdir(room.path("d")) == ["b.nc"]
    os.chmod(room.path("d"), 0o755)


@test("user")
def a_folder_that_may_not_be_read_takes_files(room):
    os.mkdir(room.path("d"))
    os.chmod(room.path("d"), 0o333)
    ran = room.write("d/b.nc", user=True)
    os.chmod(room.path("d"), 0o755)
    room.is_done(ran, "d/b.nc", "d")


@test("root")
def a_file_of_another_in_a_sticky_folder_stays(room):
    os.mkdir(room.path("d"))
    room.put("d/b.nc", mode=0o666)
    os.chmod(room.path("d"), 0o1777)
    room.is_refused(room.write("d/b.nc", user=True), "d/b.nc", "d")
    assert room.owns("d/b.nc") == (0, 0, 0o666)


@test()
def names_that_are_no_places_are_refused(room):
    os.mkdir(room.path("d"))
    room.put("b.nc")
    for name in ("", "d", "d/", "no/b.nc", "b.nc/c.nc", "c.nc/", "b.nc/", "l" * 256, "d/" * 2048 + "c.nc"):
        room.is_refused(room.write(name), "b.nc")
    assert sorted(os.listdir(room.folder)) == ["a.nc", "b.nc", "d", "labels.nc", "s.xrs"] and not os.listdir(room.path("d"))


@test()
def long_names_and_paths_are_written(room):
    os.mkdir(room.path("d"))
    for name in ("l" * 255, "d/" + "../d/" * 800 + "c.nc"):
        room.is_done(room.write(name), name, "d")


# ---- links

@test()
def what_a_link_leads_to_is_replaced(room):
    os.makedirs(room.path("d", "e"))
    links = {"l": "b.nc", "m": room.path("b.nc"), "n": "l", "d/l": "../b.nc", "d/e/l": "../../d/l", "f": "d/e", "o": "f/l", "p": "f/../../b.nc", "q": "././/b.nc"}
    for name, text in links.items():
        os.symlink(text, room.path(name))
    for name in [name for name in links if name != "f"] + ["f/l", "f/../l"]:
        room.put("b.nc")
        with open(room.path("b.nc"), "rb") as reader:
            room.is_done(room.write(name), "b.nc")
            assert reader.read() == OLD, f"{name} was written in place"
        assert not room.beside("d") and not room.beside("d", "e")
    assert all(os.readlink(room.path(name)) == text for name, text in links.items())


@test()
def what_a_link_will_lead_to_is_made(room):
    os.mkdir(room.path("d"))
    for name, text, made in [("l", "d/b.nc", "d/b.nc"), ("m", "l2", "b.nc"), ("l2", "b.nc", "b.nc"), ("d/l", "../c.nc", "c.nc")]:
        os.symlink(text, room.path(name))
    for name, made in [("l", "d/b.nc"), ("m", "b.nc"), ("d/l", "c.nc")]:
        room.is_done(room.write(name), made)
        assert os.path.islink(room.path(name)) and not room.beside("d")


@test()
def a_link_that_leads_nowhere_is_refused(room):
    os.mkdir(room.path("d"))
    room.put("b.nc")
    for name, text in [("to itself", "to itself"), ("one", "two"), ("two", "one"), ("no folder", "no/b.nc"), ("folder", "d"), ("slash", "c.nc/"), ("below a file", "b.nc/c.nc")]:
        os.symlink(text, room.path(name))
        if name != "one":
            room.is_refused(room.write(name), "b.nc")
            assert os.readlink(room.path(name)) == text
    assert not os.listdir(room.path("d")) and not os.path.exists(room.path("c.nc"))


@test()
def a_link_to_a_name_that_is_no_text_is_refused(room):
    room.put(b"\xff.nc".decode(errors="surrogateescape"))
    os.symlink(b"\xff.nc", room.path("l").encode())
    room.is_refused(room.write("l"), b"\xff.nc".decode(errors="surrogateescape"))


@test()
def forty_links_are_followed_and_no_more(room):
    for number in range(60):
        os.symlink(str(number + 1) if number < 59 else "b.nc", room.path(str(number)))
    room.put("b.nc")
    room.is_refused(room.write("0"), "b.nc")
    room.is_done(room.write("20"), "b.nc")


@test("user")
def a_link_to_a_file_that_may_not_be_written_is_refused(room):
    room.put("b.nc", mode=0o444)
    if os.geteuid() == 0:
        os.chown(room.path("b.nc"), NOBODY, NOBODY)
    os.symlink("b.nc", room.path("l"))
    room.is_refused(room.write("l", user=True), "b.nc")


@test("root")
def owner_and_group_behind_a_link_are_kept(room):
    room.put("b.nc", mode=0o604)
    os.chown(room.path("b.nc"), 12345, 23456)
    os.symlink("b.nc", room.path("l"))
    os.lchown(room.path("l"), 1, 1)
    room.is_done(room.write("l"), "b.nc")
    assert room.owns("b.nc") == (12345, 23456, 0o604) and os.lstat(room.path("l")).st_uid == 1


@test()
def an_open_file_is_replaced_by_its_name_and_refused_without_one(room):
    room.put("b.nc")
    for gone in (False, True):
        with open(room.path("b.nc"), "r+b") as file:
            if gone:
                os.remove(room.path("b.nc"))
            ran = room.write(f"/proc/self/fd/{file.fileno()}", pass_fds=[file.fileno()])
            assert file.read() == OLD
        if gone:
            failed(ran)
            assert sorted(os.listdir(room.folder)) == ["a.nc", "labels.nc", "s.xrs"]
        else:
            room.is_done(ran, "b.nc")
            room.put("b.nc")


# ---- names beside

def as_writer(number, process):
    return f".xrs-{process:010}-{number:010}"


@test()
def files_that_ended_writers_left_are_no_hindrance(room):
    os.mkdir(room.path("d"))
    for number in range(100_000):
        os.close(os.open(room.path("d", f".xrs-{number:05}"), os.O_CREAT | os.O_WRONLY))
    left = len(room.beside("d"))
    ran = room.write("d/b.nc")
    assert ran == Ran(0, b"", b"") and room.read("d/b.nc") == room.new and len(room.beside("d")) == left


@test()
def names_of_the_same_process_are_tried_in_turn(room):
    def leave():
        for number in range(3000):
            with open(as_writer(number, os.getpid()), "wb") as f:
                f.write(OLD)
    ran = room.run('a = open_dataset("a.nc")\na.to_netcdf("b.nc")\na.to_netcdf("c.nc")', preexec_fn=leave)
    assert ran == Ran(0, b"", b"") and room.read("b.nc") == room.read("c.nc") == room.new
    left = room.beside()
    assert len(left) == 3000 and all(room.read(name) == OLD for name in left)


# ---- limits and full disks

def limited(size, hard=False):
    return lambda: resource.setrlimit(resource.RLIMIT_FSIZE, (size, size if hard else resource.RLIM_INFINITY))


@test()
def a_file_past_the_limit_of_the_process_is_refused(room):
    size = len(room.new)
    room.put("big.nc", many_cells(SYNCED_BY_TWO + 1))
    for hard in (False, True):
        for most in (0, 1, size - 1):
            room.put("b.nc")
            room.is_refused(room.write("b.nc", preexec_fn=limited(most, hard)), "b.nc")
            room.is_refused(room.write("c.nc", preexec_fn=limited(most, hard)), None)
            assert not os.path.exists(room.path("c.nc"))
        room.is_done(room.write("b.nc", preexec_fn=limited(size, hard)), "b.nc")
        room.put("b.nc")
        room.is_refused(room.run('open_dataset("big.nc").to_netcdf("b.nc")', preexec_fn=limited(SYNCED_BY_TWO, hard)), "b.nc")


@test()
def an_output_past_the_limit_of_the_process_ends_it(room):
    # (the only one of the limits that the program can't answer, since its language has no way to ignore a signal)
    with open(room.path("out"), "wb") as out:
        ran = room.run('a = open_dataset("a.nc")\nprint(a)\na.to_netcdf("b.nc")', stdout=out, preexec_fn=limited(10))
    assert ran.status == -signal.SIGXFSZ and len(room.read("out")) == 10, ran
    assert not os.path.exists(room.path("b.nc")) and not room.beside()


@test()
def a_device_knows_no_limit(room):
    assert room.write("/dev/null", preexec_fn=limited(1)) == Ran(0, b"", b"")


def in_a_small_disk(room, commands):
    """Runs the commands, and then the program, where `d` is a file system of 64 KiB in memory, which nobody else sees."""
    words = ["unshare", "-m"] if os.geteuid() == 0 else ["unshare", "-Urm"]
    shell = f'mount -t tmpfs -o size=64k none d && {commands} && {{ "$0" "$1"; echo "$?"; }} && ls -A d && cat d/b.nc'
    ran = subprocess.run([*words, "sh", "-c", shell, *room.script('open_dataset("big.nc").to_netcdf("NAME")'.replace("NAME", "l.nc" if "ln" in commands else "d/b.nc"))],
                         cwd=room.folder, capture_output=True, timeout=SECONDS)
    return ran.stdout, ran.stderr


@test("mount")
def a_full_disk_keeps_the_old_file_and_nothing_else(room):
    os.mkdir(room.path("d"))
    room.put("old")
    for size in (70_000, SYNCED_BY_TWO + 1):
        room.put("big.nc", many_cells(size))
        for commands in ("cp old d/b.nc", "cp old d/b.nc && ln -sf d/b.nc l.nc"):
            out, err = in_a_small_disk(room, commands)
            assert out == b"3\nb.nc\n" + OLD and err == b"xrs: storage fault\n", (out[:200], err)
    room.put("big.nc", many_cells(20_000))
    out, err = in_a_small_disk(room, "cp old d/b.nc")
    assert out.startswith(b"0\nb.nc\nCDF") and not err, (out[:200], err)


@test("mount")
def a_disk_that_may_not_be_written_keeps_the_old_file(room):
    os.mkdir(room.path("d"))
    room.put("old")
    room.put("big.nc", many_cells(1000))
    out, err = in_a_small_disk(room, "cp old d/b.nc && mount -o remount,ro none d")
    assert out == b"3\nb.nc\n" + OLD and err == b"xrs: storage fault\n", (out[:200], err)


# ---- calls of the system that fail, and the program's end at each

def kind_of(call):
    """What a call does and with what, without the numbers that each run has anew."""
    return call.name, re.sub(r"^\.xrs-\d+-\d+$", ".xrs", os.path.basename(call.path.rstrip("/")))


def calls_of(room, text, name, at_call=lambda call: None):
    """Runs the script and asks `at_call` at each call from the first one on that concerns the name."""
    begun = []

    def asked(call):
        if begun or os.path.basename(call.path) == name:
            begun.append(call)
            return at_call(call)
        return None
    end = tracing.run(room.script(text), room.folder, asked)
    return end._replace(calls=begun)


def at_one(kind, which, act):
    """What acts at one call, that of this kind and of this number among them, and the list of those that it saw."""
    seen = []

    def at_call(call):
        if kind_of(call) == kind:
            seen.append(call)
            if len(seen) == which + 1:
                return act()
        return None
    return at_call, seen


def each_of(calls, most):
    """Each kind of these calls, and the numbers of those that it has, at most so many."""
    for kind, count in collections.Counter(map(kind_of, calls)).items():
        for which in range(min(count, most)):
            yield kind, which


def is_needless(kind):
    """Whether a write is whole without this call: the closing, the owner, the second thread, and what the limits are."""
    return kind[0] in ("close", "fchown", "clone", "fcntl") or kind[1] == "limits"


def after_move(calls):
    """The kinds of the calls after a file has its name."""
    moved = [call.name for call in calls].index("rename")
    return {kind_of(call) for call in calls[moved + 1:]}


class Write:
    """A script that writes a file, which stands before or doesn't."""

    def __init__(self, room, source, name, place, old):
        self.room, self.name, self.place, self.old = room, os.path.basename(name), place, old
        self.text = f'open_dataset("{source}").to_netcdf("{name}")'
        self.prepare()
        self.calls = self.run(lambda call: None, 0)
        self.new, self.after = room.read(place), after_move(self.calls)

    def prepare(self):
        path = self.room.path(self.place)
        if self.old is not None:
            self.room.put(self.place, self.old)
        elif os.path.exists(path):
            os.remove(path)

    def held(self):
        return self.room.read(self.place) if os.path.exists(self.room.path(self.place)) else None

    def run(self, at_call, status):
        """One run, which ends with the status and its line."""
        def asked(call):
            # (what is written waits, so that the other thread sends some of it to the disk before all is there)
            answer = at_call(call)
            return tracing.WAIT if answer is None and call.name == "write" else answer
        end = calls_of(self.room, self.text, self.name, asked)
        assert end[:3] == (status, b"", b"xrs: storage fault\n" if status == STORAGE else b""), (end[:3], end.calls)
        return end.calls

    def fail_in_turn(self, most):
        for kind, which in each_of(self.calls, most):
            for error in {"write": (errno.ENOSPC, errno.EIO), "clone": (errno.EAGAIN,)}.get(kind[0], (errno.EIO,)):
                self.prepare()
                at_call, seen = at_one(kind, which, lambda: error)
                self.run(at_call, 0 if is_needless(kind) else STORAGE)
                assert len(seen) > which
                wanted = self.new if is_needless(kind) or kind in self.after else self.old
                assert self.held() == wanted, (kind, which, error)
                assert not self.room.beside() and not self.room.beside("d"), (kind, which, error)

    def end_in_turn(self, most):
        for kind, which in each_of(self.calls, most):
            self.prepare()
            at_call, seen = at_one(kind, which, lambda: tracing.END_ALL)
            self.run(at_call, -signal.SIGKILL)
            assert self.held() == (self.new if kind in self.after else self.old), (kind, which)
            left = self.room.beside()
            assert len(left) <= 1 and (not left or kind not in self.after), (kind, which, left)
            assert left or kind[1] != ".xrs" or kind[0] == "open", (kind, which)
            # a later run does what this one didn't, and what was left stays
            ran = self.room.run(self.text)
            assert ran == Ran(0, b"", b"") and self.held() == self.new and self.room.beside() == left, (kind, which, ran)
            for name in left:
                os.remove(self.room.path(name))


@test("trace")
def each_call_of_a_write_fails_in_turn(room):
    os.mkdir(room.path("d"))
    os.symlink("d/b.nc", room.path("l.nc"))
    for name in ("d/b.nc", "l.nc"):
        for old in (OLD, None):
            write = Write(room, "a.nc", name, "d/b.nc", old)
            assert write.new == room.new
            write.fail_in_turn(9)
            # the bytes are on the disk before the file has the name, and the name is before the run ends
            order = [kind_of(call) for call in write.calls if call.name in ("write", "fsync", "rename", "fchown", "fchmod")]
            given = [("fchown", ".xrs"), ("fchmod", ".xrs")] if old else []
            assert order == given + [("write", ".xrs"), ("write", ".xrs"), ("fsync", ".xrs"), ("rename", ".xrs"), ("fsync", "d")], order


@test("trace")
def each_kind_of_call_of_a_large_write_fails_in_turn(room):
    room.put("big.nc", many_cells(SYNCED_BY_TWO + 1))
    os.mkdir(room.path("d"))
    write = Write(room, "big.nc", "b.nc", "b.nc", OLD)
    kinds = [kind_of(call) for call in write.calls]
    assert len({call.thread for call in write.calls}) == 2 and ("fdatasync", ".xrs") in kinds and ("clone", "") in kinds, kinds
    assert room.read("big.nc")[-1000:] in write.new[-1010:]
    write.fail_in_turn(1)


@test("trace")
def want_of_memory_is_told_before_a_write_and_a_fault_of_the_storage_in_it(room):
    os.symlink("b.nc", room.path("l.nc"))
    fault = (STORAGE, b"", b"xrs: storage fault\n")
    for kind, wanted in ((("readlink", "l.nc"), (4, b"", b"xrs: out of memory\n")), (("write", ".xrs"), fault), (("rename", ".xrs"), fault)):
        room.put("b.nc")
        at_call, seen = at_one(kind, 0, lambda: errno.ENOMEM)
        end = calls_of(room, 'open_dataset("a.nc").to_netcdf("l.nc")', "l.nc", at_call)
        assert seen and end[:3] == wanted, (kind, end[:3])
        assert room.read("b.nc") == OLD and not room.beside(), kind


@test("trace")
def a_new_file_that_cant_be_removed_is_left_and_the_old_one_stays(room):
    room.put("b.nc")
    end = calls_of(room, 'open_dataset("a.nc").to_netcdf("b.nc")', "b.nc", lambda call: errno.EIO if call.name in ("fsync", "unlink") else None)
    failed(Ran(*end[:3]))
    assert room.read("b.nc") == OLD and len(room.beside()) == 1


@test("trace")
def a_run_that_ends_at_any_call_leaves_the_old_file_or_the_new_one(room):
    Write(room, "a.nc", "b.nc", "b.nc", OLD).end_in_turn(9)
    Write(room, "a.nc", "b.nc", "b.nc", None).end_in_turn(9)


@test("trace")
def a_large_write_that_ends_leaves_the_old_file_or_the_new_one(room):
    room.put("big.nc", many_cells(SYNCED_BY_TWO + 1))
    Write(room, "big.nc", "b.nc", "b.nc", OLD).end_in_turn(1)


@test("trace")
def each_call_of_a_read_fails_in_turn(room):
    room.put("big.nc", many_cells(READ_BY_FOUR + 3))
    for source in ("a.nc", "big.nc"):
        text = f'print(open_dataset("{source}")["v"].sum())'
        sound = calls_of(room, text, source)
        assert sound.status == 0 and sound.out.startswith(b"DataArray v"), sound[:3]
        for kind, which in each_of([call for call in sound.calls if kind_of(call)[1] == source or call.name == "clone"], 9):
            at_call, seen = at_one(kind, which, lambda: errno.EAGAIN if kind[0] == "clone" else errno.EIO)
            end = calls_of(room, text, source, at_call)
            assert len(seen) > which
            if kind[0] in ("close", "clone"):
                assert end[:3] == sound[:3], (kind, which, end[:3])
            else:
                failed(Ran(*end[:3]))


def moves_bytes(call):
    return call.name in ("read", "write", "pread")


@test("trace")
def devices_that_move_one_byte_a_call_change_no_answer(room):
    text = 'a = open_dataset("a.nc")\nprint(a)\na.to_netcdf("b.nc")\nprint(a["v"].sum())\nprint(no)'
    sound = room.run(text)
    assert sound.status == 1 and sound.out.endswith(b"6\n") and sound.err == b"xrs: statement 5: F1 unknown name no\n", sound
    os.remove(room.path("b.nc"))
    end = calls_of(room, text, "s.xrs", lambda call: tracing.ONE_BYTE if moves_bytes(call) else None)
    assert Ran(*end[:3]) == sound and room.read("b.nc") == room.new and not room.beside()
    written = sum(call.name == "write" for call in end.calls)
    assert written == len(sound.out) + len(sound.err) + len(room.new), written


@test("trace")
def calls_that_a_signal_interrupts_are_made_again(room):
    text = 'a = open_dataset("a.nc")\nprint(a)\na.to_netcdf("b.nc")\nprint(no)'
    sound = room.run(text)
    assert sound.status == 1 and sound.out and sound.err == b"xrs: statement 4: F1 unknown name no\n", sound
    os.remove(room.path("b.nc"))
    again = set()

    def interrupted(call):
        # (each call fails once, and is then made)
        if not moves_bytes(call) or kind_of(call) in again:
            again.discard(kind_of(call))
            return None
        again.add(kind_of(call))
        return errno.EINTR
    end = calls_of(room, text, "s.xrs", interrupted)
    assert Ran(*end[:3]) == sound and room.read("b.nc") == room.new and not room.beside()


# ---- files that change meanwhile

@test("trace")
def a_file_that_changes_while_four_threads_read_it(room):
    whole = many_cells(READ_BY_FOUR + 3)
    other = whole[:-4] + bytes(4)
    text = 'print(open_dataset("big.nc")["v"].sum())'
    room.put("big.nc", other)
    others = room.run(text)
    room.put("big.nc", whole)
    sound = calls_of(room, text, "big.nc")
    reads = [kind_of(call) for call in sound.calls].count(("pread", "big.nc"))
    assert reads >= 4 and len({call.thread for call in sound.calls}) == 4 and others.out != sound.out, sound.calls

    def longer():
        with open(room.path("big.nc"), "ab") as f:
            f.write(b"more")
    lacks, same = (STORAGE, b"", b"xrs: storage fault\n"), sound[:3]
    changes = [(0, lambda: os.truncate(room.path("big.nc"), READ_BY_FOUR // 2), [lacks]), (0, lambda: os.truncate(room.path("big.nc"), 0), [lacks]),
               # (what the other threads read before may be all that is gone)
               (reads - 1, lambda: os.truncate(room.path("big.nc"), 0), [lacks, same]), (0, longer, [same]), (reads - 1, longer, [same]),
               (0, lambda: os.rename(room.path("other.nc"), room.path("big.nc")), [same]), (reads - 1, lambda: os.remove(room.path("big.nc")), [same])]
    for number, (which, change, allowed) in enumerate(changes):
        if os.path.exists(room.path("big.nc")):
            os.remove(room.path("big.nc"))
        room.put("big.nc", whole)
        room.put("other.nc", other)
        at_call, seen = at_one(("pread", "big.nc"), which, change)
        end = calls_of(room, text, "big.nc", at_call)
        assert len(seen) > which and end[:3] in allowed, (number, end[:3])


@test()
def readers_and_writers_of_one_file_see_whole_files(room):
    room.put("one.nc", many_cells(SYNCED_BY_TWO + 1))
    room.put("two.nc", many_cells(SYNCED_BY_TWO // 2))
    sums = {room.run(f'print(open_dataset("{name}")["v"].sum())').out for name in ("one.nc", "two.nc")}
    assert len(sums) == 2
    for name, text in [("one.xrs", 'open_dataset("one.nc").to_netcdf("b.nc")\n'), ("two.xrs", 'open_dataset("two.nc").to_netcdf("b.nc")\n'), ("read.xrs", 'print(open_dataset("b.nc")["v"].sum())\n')]:
        room.put(name, text.encode())
    room.put("b.nc", room.read("one.nc"))
    wrong, reads = [], []

    def once(script, allowed):
        ran = subprocess.run([room.program, script], cwd=room.folder, capture_output=True, timeout=SECONDS)
        if ran.returncode or ran.stderr or ran.stdout not in allowed:
            wrong.append((script, ran))

    def write(script):
        for _ in range(12):
            once(script, {b""})
    writers = [threading.Thread(target=write, args=[script]) for script in ("one.xrs", "two.xrs")]

    def read():
        while len(reads) < 8 or any(writer.is_alive() for writer in writers):
            once("read.xrs", sums)
            reads.append(None)
    threads = [*writers, threading.Thread(target=read), threading.Thread(target=read)]
    for thread in threads:
        thread.start()
    for thread in threads:
        thread.join()
    assert not wrong, wrong
    assert not room.beside()


# ---- what may be read

@test()
def what_is_no_file_to_read(room):
    os.mkdir(room.path("d"))
    os.symlink("no.nc", room.path("dangling"))
    os.symlink("loop", room.path("loop"))
    for name in ("no.nc", "no/a.nc", "a.nc/b.nc", "dangling", ""):
        ran = room.run(f'print(open_dataset("{name}"))')
        assert ran == Ran(1, b"", f"xrs: statement 1: F23 no file {name}\n".encode()), (name, ran)
    for name in ("d", "loop", "l" * 256):
        failed(room.run(f'print(open_dataset("{name}"))'))
    ran = subprocess.run([room.program, "no.xrs"], cwd=room.folder, capture_output=True, timeout=SECONDS)
    assert ran.returncode == 2, ran


def little_memory(size):
    return lambda: resource.setrlimit(resource.RLIMIT_AS, (size, size))


@test("memory")
def vast_files_are_too_large_and_are_not_read(room):
    # (no bytes of it are on the disk)
    with open(room.path("vast.nc"), "wb") as vast:
        vast.truncate(1 << 42)
    ran = room.run('print(open_dataset("vast.nc"))', preexec_fn=little_memory(64 << 20))
    assert ran == Ran(1, b"", b"xrs: statement 1: F24 bad file: TooLarge at 0\n"), ran
    ran = subprocess.run([room.program, "vast.nc"], cwd=room.folder, capture_output=True, timeout=SECONDS, preexec_fn=little_memory(64 << 20))
    assert (ran.returncode, ran.stdout, ran.stderr) == (2, b"", b"xrs: line 0: too many\n"), ran


@test()
def files_and_scripts_of_the_greatest_size_are_taken(room):
    text = 'print(open_dataset("a.nc")["v"].sum())\n#'
    for more in (0, 1):
        with open(room.path("a.nc"), "r+b") as file:
            file.truncate((1 << 28) + more)
        room.put("s.xrs", (text + "." * ((1 << 20) - len(text))).encode())
        ran = subprocess.run([room.program, "s.xrs"], cwd=room.folder, capture_output=True, timeout=SECONDS)
        wanted = (1, b"", b"xrs: statement 1: F24 bad file: TooLarge at 0\n") if more else (0, b"DataArray v () int64\n6\n", b"")
        assert (ran.returncode, ran.stdout, ran.stderr) == wanted, ran
    room.put("s.xrs", room.read("s.xrs") + b".")
    ran = subprocess.run([room.program, "s.xrs"], cwd=room.folder, capture_output=True, timeout=SECONDS)
    assert (ran.returncode, ran.stdout, ran.stderr) == (2, b"", b"xrs: line 0: too many\n"), ran


@test()
def endless_files_are_too_large(room):
    assert room.run('print(open_dataset("/dev/zero"))') == Ran(1, b"", b"xrs: statement 1: F24 bad file: TooLarge at 0\n")
    ran = subprocess.run([room.program, "/dev/zero"], cwd=room.folder, capture_output=True, timeout=SECONDS)
    assert (ran.returncode, ran.stdout, ran.stderr) == (2, b"", b"xrs: line 0: too many\n"), ran


def one_variable(name, dim, size):
    """A classic file of one variable of type int over one dimension, all of whose cells are 0."""
    header = b"CDF\x01" + struct.pack(">4i", 0, 10, 1, 1) + dim + bytes(3) + struct.pack(">i", size)
    header += struct.pack(">5i", 0, 0, 11, 1, 1) + name + bytes(3) + struct.pack(">6i", 1, 0, 0, 0, 4, 4 * size)
    return header + struct.pack(">i", len(header) + 4) + bytes(4 * size)


@test("memory")
def nothing_is_computed_of_a_value_that_is_too_large(room):
    # (its cells would take 256 MiB)
    room.put("p.nc", one_variable(b"p", b"i", 8192))
    room.put("q.nc", one_variable(b"q", b"j", 8192))
    text = 'p = open_dataset("p.nc")["p"]\nq = open_dataset("q.nc")["q"]\nprint((p.isel(i=slice(2)) + q.isel(j=slice(2))).sum())\nr = p + q'
    ran = room.run(text, preexec_fn=little_memory(64 << 20))
    assert ran == Ran(1, b"DataArray - () int64\n0\n", b"xrs: statement 4: F22 too large\n"), ran


def with_shared_labels(count, size):
    """A classic file of so many indexes of bytes, whose values are the same bytes of the file."""
    names = [b"d%03d" % i for i in range(count)]
    dims = b"".join(struct.pack(">i4si", 4, name, size) for name in names)
    front = b"CDF\x01" + struct.pack(">3i", 0, 10, count) + dims + struct.pack(">4i", 0, 0, 11, count)
    begin = len(front) + 36 * count
    vars_ = b"".join(struct.pack(">i4s7i", 4, name, 1, i, 0, 0, 1, size, begin) for i, name in enumerate(names))
    return front + vars_ + (bytes(range(251)) * (size // 251 + 1))[:size]


@test()
def labels_that_share_their_bytes(room):
    room.put("b.nc", with_shared_labels(40, 300))
    ran = room.run('print(open_dataset("b.nc").isel(d000=[299], d039=[0]))')
    labels = " ".join(str(i % 251 - 256 * (i % 251 > 127)) for i in range(300))
    wanted = [f"dim d{i:03}: {1 if i in (0, 39) else 300}\n" for i in range(40)]
    wanted += [f"coord d{i:03} int8 (d{i:03}): {'48' if i == 0 else '0' if i == 39 else labels}\n" for i in range(40)]
    assert ran == Ran(0, "".join(["Dataset\n", *wanted]).encode(), b""), ran


@test("memory")
def labels_that_want_more_memory_than_there_is(room):
    # (a list of these labels takes 256 MiB, and each index has one of its own)
    room.put("big.nc", with_shared_labels(12, 1 << 25))
    ran = room.run('open_dataset("a.nc").to_netcdf("b.nc")\nprint(open_dataset("big.nc"))', preexec_fn=little_memory(1 << 30))
    assert ran == Ran(4, b"", b"xrs: out of memory\n"), ran
    assert room.read("b.nc") == room.new and not room.beside()


@test()
def a_file_that_would_be_too_large_is_not_written(room):
    # (its values alone take 256 MiB)
    room.put("b.nc")
    room.put("p.nc", one_variable(b"p", b"i", 8192))
    room.put("q.nc", one_variable(b"q", b"j", 4096))
    ran = room.run('p = open_dataset("p.nc")["p"].astype("int64")\nr = (p + open_dataset("q.nc")["q"]).rename("r")\nr.to_netcdf("b.nc")')
    assert ran == Ran(1, b"", b"xrs: statement 3: F22 too large\n"), ran
    assert room.read("b.nc") == OLD and not room.beside()


@test("user")
def a_file_that_may_not_be_read_is_a_fault_of_the_storage(room):
    room.put("b.nc", room.read("a.nc"), mode=0)
    failed(room.run('print(open_dataset("b.nc"))', user=True))


# ---- devices and pipes

def taken_from(path, most=None):
    """What is read from a pipe by its name, in a thread; all of it, or the first bytes."""
    taken = []

    def take():
        with open(path, "rb", buffering=0) as f:
            if most is not None:
                taken.append(f.read(most))
                return
            while piece := f.read(1 << 16):
                taken.append(piece)
    thread = threading.Thread(target=take, daemon=True)
    thread.start()
    return thread, taken


@test()
def a_pipe_takes_a_file_and_stays_a_pipe(room):
    os.mkfifo(room.path("p"))
    os.symlink("p", room.path("l"))
    room.put("big.nc", many_cells(SYNCED_BY_TWO + 1))
    assert room.run('open_dataset("big.nc").to_netcdf("b.nc")').status == 0
    for name in ("p", "l"):
        for source, whole in (("a.nc", room.new), ("big.nc", room.read("b.nc"))):
            thread, taken = taken_from(room.path("p"))
            ran = room.run(f'open_dataset("{source}").to_netcdf("{name}")')
            thread.join(SECONDS)
            assert ran == Ran(0, b"", b"") and b"".join(taken) == whole, (name, source, ran)
            assert stat.S_ISFIFO(os.stat(room.path("p")).st_mode) and not room.beside()


@test()
def a_pipe_gives_a_file(room):
    os.mkfifo(room.path("p"))
    room.put("big.nc", many_cells(READ_BY_FOUR + 3))
    for source in ("a.nc", "big.nc"):
        wanted = room.run(f'print(open_dataset("{source}").sum())')

        def give():
            with open(room.path("p"), "wb") as f:
                f.write(room.read(source))
        thread = threading.Thread(target=give, daemon=True)
        thread.start()
        assert room.run('print(open_dataset("p").sum())') == wanted and wanted.status == 0
        thread.join(SECONDS)


@test()
def a_pipe_whose_reader_goes_is_a_fault_of_the_storage(room):
    os.mkfifo(room.path("p"))
    room.put("big.nc", many_cells(SYNCED_BY_TWO + 1))
    thread, taken = taken_from(room.path("p"), 100)
    failed(room.run('open_dataset("big.nc").to_netcdf("p")'))
    thread.join(SECONDS)
    assert len(taken[0]) == 100


@test()
def devices_are_written_through(room):
    assert room.write("/dev/null") == Ran(0, b"", b"")
    assert stat.S_ISCHR(os.stat("/dev/null").st_mode)
    failed(room.write("/dev/full"))
    assert stat.S_ISCHR(os.stat("/dev/full").st_mode)
    # the output as a file, which is a pipe here
    assert room.write("/dev/stdout") == Ran(0, room.new, b"")
    assert not room.beside()


@test()
def a_stream_that_takes_nothing_is_a_fault_of_the_storage(room):
    text = 'a = open_dataset("a.nc")\na.to_netcdf("b.nc")\nprint(a)\na.to_netcdf("c.nc")'

    def checked(ran):
        assert ran.status == STORAGE and ran.err == b"xrs: storage fault\n", ran
        assert room.read("b.nc") == room.new and not os.path.exists(room.path("c.nc")) and not room.beside()
        os.remove(room.path("b.nc"))
    with open("/dev/full", "wb") as full:
        checked(room.run(text, stdout=full))
    checked(room.run(text, stdout=None, preexec_fn=lambda: os.close(1)))
    reader, writer = os.pipe()
    os.close(reader)
    checked(room.run(text, stdout=writer))
    os.close(writer)
    room.put("out")
    with open(room.path("out"), "rb") as unwritable:
        checked(room.run(text, stdout=unwritable))


@test()
def a_stream_of_errors_that_takes_nothing_keeps_a_status(room):
    text = 'a = open_dataset("a.nc")\nprint(a["v"].sum())\nb = a["no"]'
    with open("/dev/full", "wb") as full:
        ran = room.run(text, stderr=full)
    assert ran.status == STORAGE and ran.out == b"DataArray v () int64\n6\n", ran
    reader, writer = os.pipe()
    os.close(reader)
    ran = room.run(text, stderr=writer)
    os.close(writer)
    assert ran.status == STORAGE and ran.out == b"DataArray v () int64\n6\n", ran


def can_mount():
    words = ["unshare", "-m"] if os.geteuid() == 0 else ["unshare", "-Urm"]
    try:
        return subprocess.run([*words, "sh", "-c", "mount -t tmpfs -o size=64k none /mnt"], capture_output=True).returncode == 0
    except OSError:
        return False


def can_limit_memory(program):
    """Whether a program may run in little memory; one that is built with checks takes far more addresses than it uses."""
    ran = subprocess.run([program], capture_output=True, preexec_fn=little_memory(64 << 20))
    return ran.returncode == 2


def main():
    top = tempfile.mkdtemp()
    os.chmod(top, 0o755)
    try:
        # (the ordinary user need not be able to read where the program lies)
        program = shutil.copy(sys.argv[1], os.path.join(top, "xrs"))
        os.chmod(program, 0o755)
        can = {"root": os.geteuid() == 0, "user": True, "trace": tracing.works(), "mount": can_mount(), "memory": can_limit_memory(program)}
        only, passed, wrong, skipped = sys.argv[2:], 0, 0, []
        for number, (name, needs, function) in enumerate(TESTS):
            if only and not any(word in name for word in only):
                continue
            if not all(can[need] for need in needs):
                skipped.append(name)
                continue
            begun = time.monotonic()
            try:
                function(Room(program, os.path.join(top, str(number))))
                passed += 1
            except Exception:
                print(f"{name}:\n{traceback.format_exc()}")
                wrong += 1
            if only:
                print(f"{name}: {time.monotonic() - begun:.1f} s")
    finally:
        shutil.rmtree(top, ignore_errors=True)
    for name in skipped:
        print(f"skipped: {name}, which needs what this machine lacks")
    print(f"{passed} passed, {wrong} failed, {len(skipped)} skipped")
    return 1 if wrong else 0


sys.exit(main())
