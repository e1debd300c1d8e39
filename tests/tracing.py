"""Runs a program and stops it at each of its calls of the system, which may then be watched, made to fail, or be its last one.

It needs Linux on x86-64 and the right to trace a child (`works` says whether both are there).
"""
import collections
import ctypes
import os
import platform
import signal

TRACE_ME, SYSCALL, GET_REGISTERS, SET_REGISTERS, SET_OPTIONS, EVENT_MESSAGE = 0, 24, 12, 13, 0x4200, 0x4201
MARK_CALLS, FOLLOW_THREADS, TELL_OF_EXEC, END_WITH_US = 1, 8, 16, 1 << 20
ALL_CHILDREN, STARTED_THREAD = 0x40000000, 3
# After so many seconds a run is given up.
SECONDS = 120
REGISTERS = "r15 r14 r13 r12 rbp rbx r11 r10 r9 r8 rax rcx rdx rsi rdi orig_rax rip cs eflags rsp ss fs_base gs_base ds es fs gs"

# The calls that are told, and which of their arguments is a path, or a descriptor.
PATH, SECOND_PATH, FILE, NEITHER = "path", "second path", "file", "neither"
CALLS = {0: ("read", FILE), 1: ("write", FILE), 3: ("close", FILE), 17: ("pread", FILE), 56: ("clone", NEITHER), 72: ("fcntl", FILE), 74: ("fsync", FILE), 75: ("fdatasync", FILE),
         82: ("rename", PATH), 87: ("unlink", PATH), 89: ("readlink", PATH), 91: ("fchmod", FILE), 93: ("fchown", FILE), 257: ("open", SECOND_PATH), 332: ("stat", SECOND_PATH), 435: ("clone", NEITHER)}

Call = collections.namedtuple("Call", "name path thread")
End = collections.namedtuple("End", "status out err calls")

# What a call may be answered with in place of a number of an error: the end of the program, or that it waits until another
# thread makes a call that is told, or ends (a thread that is alone doesn't wait), or that a read or a write moves one byte at most.
END_ALL, WAIT, ONE_BYTE = "end all", "wait", "one byte"

_c = ctypes.CDLL(None, use_errno=True)
_c.ptrace.restype = ctypes.c_long
_c.ptrace.argtypes = [ctypes.c_long, ctypes.c_long, ctypes.c_void_p, ctypes.c_void_p]


class Registers(ctypes.Structure):
    _fields_ = [(name, ctypes.c_ulonglong) for name in REGISTERS.split()]


def _ptrace(request, thread, data=0):
    # (a thread that has ended meanwhile is told of by wait)
    return _c.ptrace(request, thread, None, data) >= 0


def _text_at(thread, address):
    with open(f"/proc/{thread}/mem", "rb", buffering=0) as memory:
        memory.seek(address)
        # (to the end of the page, since the next one may not be there; a text may go on in it)
        text = memory.read(4096 - address % 4096)
        while b"\0" not in text:
            text += memory.read(4096)
        return text.split(b"\0")[0].decode(errors="replace")


def _call_at(thread, registers):
    if registers.orig_rax not in CALLS:
        return None
    name, kind = CALLS[registers.orig_rax]
    path = ""
    if kind == PATH:
        path = _text_at(thread, registers.rdi)
    elif kind == SECOND_PATH:
        path = _text_at(thread, registers.rsi)
    if kind == FILE or kind == SECOND_PATH and not path:
        try:
            path = os.readlink(f"/proc/{thread}/fd/{registers.rdi}")
        except OSError:
            pass
    return Call(name, path, thread)


def _go_on(waiting):
    while waiting:
        _ptrace(SYSCALL, waiting.pop())


def _late(_number, _frame):
    raise TimeoutError


def _follow(child, at_call):
    os.waitpid(child, os.WUNTRACED)
    if not _ptrace(SET_OPTIONS, child, MARK_CALLS | FOLLOW_THREADS | TELL_OF_EXEC | END_WITH_US):
        raise OSError("a child can't be traced")
    _ptrace(SYSCALL, child)
    calls, answers, alive, begun, waiting = [], {}, {child}, {child}, []
    ended = set()
    registers = Registers()
    while True:
        thread, status = os.waitpid(-1, ALL_CHILDREN)
        if not os.WIFSTOPPED(status):
            alive.discard(thread)
            ended.add(thread)
            if thread == child:
                return status, calls
            _go_on(waiting)
            continue
        stop, passed_on = os.WSTOPSIG(status), 0
        if stop == signal.SIGTRAP | 0x80:
            _ptrace(GET_REGISTERS, thread, ctypes.addressof(registers))
            if thread in answers:
                answer = answers.pop(thread)
                if answer is not None:
                    registers.rax = -answer % (1 << 64)
                    _ptrace(SET_REGISTERS, thread, ctypes.addressof(registers))
            else:
                call, answer = _call_at(thread, registers), None
                if call:
                    calls.append(call)
                    answer = at_call(call)
                    _go_on(waiting)
                if answer == END_ALL:
                    os.kill(child, signal.SIGKILL)
                    continue
                if answer == WAIT:
                    answers[thread] = None
                    if len(alive) > 1:
                        waiting.append(thread)
                        continue
                    answer = None
                if answer == ONE_BYTE:
                    registers.rdx = min(registers.rdx, 1)
                    _ptrace(SET_REGISTERS, thread, ctypes.addressof(registers))
                    answer = None
                if answer is not None:
                    # (no call has this number, so nothing is done)
                    registers.orig_rax = (1 << 64) - 1
                    _ptrace(SET_REGISTERS, thread, ctypes.addressof(registers))
                answers[thread] = answer
        elif stop == signal.SIGSTOP and thread not in begun:
            begun.add(thread)
        elif status >> 16 == STARTED_THREAD:
            started = ctypes.c_ulong()
            _ptrace(EVENT_MESSAGE, thread, ctypes.addressof(started))
            # (its end may be told before its start)
            alive |= {started.value} - ended
        elif stop != signal.SIGTRAP:
            passed_on = stop
        _ptrace(SYSCALL, thread, passed_on)


def run(words, folder, at_call, prepare=lambda: None):
    """Runs the words in the folder. At each call of CALLS `at_call` is asked with it, and answers None, or the number of the
    error with which the call fails, undone, or END_ALL, WAIT or ONE_BYTE. `prepare` is done in the child before."""
    out, err = os.memfd_create("out"), os.memfd_create("err")
    child = os.fork()
    if child == 0:
        try:
            os.chdir(folder)
            os.dup2(os.open("/dev/null", os.O_RDONLY), 0)
            os.dup2(out, 1)
            os.dup2(err, 2)
            prepare()
            _ptrace(TRACE_ME, 0)
            os.kill(os.getpid(), signal.SIGSTOP)
            os.execv(words[0], words)
        finally:
            os._exit(127)
    signal.signal(signal.SIGALRM, _late)
    signal.alarm(SECONDS)
    try:
        status, calls = _follow(child, at_call)
    except BaseException:
        os.kill(child, signal.SIGKILL)
        os.waitpid(child, 0)
        raise
    finally:
        signal.alarm(0)
    told = []
    for file in (out, err):
        told.append(os.pread(file, 1 << 24, 0))
        os.close(file)
    return End(os.waitstatus_to_exitcode(status), *told, calls)


def works():
    """Whether a child can be traced here."""
    if platform.system() != "Linux" or platform.machine() != "x86_64":
        return False
    try:
        return run(["/bin/cat", "/dev/null"], "/", lambda call: 1 if call.path == "/dev/null" and call.name == "open" else None).status == 1
    except OSError:
        return False
