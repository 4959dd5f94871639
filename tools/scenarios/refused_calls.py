"""System calls that the kernel refuses to a process, by a filter (seccomp)."""
import ctypes

# The kernel's words: <linux/prctl.h>, <linux/seccomp.h>, <linux/bpf_common.h> and <asm/unistd_64.h>.
NO_NEW_PRIVILEGES, SET_FILTER, BY_PROGRAM = 38, 22, 2
LOAD, IS_EQUAL, IS_ABOVE, RETURN = 0x20, 0x15, 0x25, 0x06
ALLOW, REFUSE = 0x7FFF0000, 0x00050000
RECVFROM, RECVMSG = 45, 47
# Where a filter finds the number of the call and the low half of its first argument.
NUMBER, FIRST = 0, 16
EIO = 5
# The descriptors of standard streams, and of what waits for them, and that of the socket for SIP, which is opened first.
LAST_ALLOWED = 4


class Step(ctypes.Structure):
    """A step of a filter: what it does, where it goes on if so and if not, and its number."""

    _fields_ = [("code", ctypes.c_ushort), ("if_so", ctypes.c_ubyte), ("if_not", ctypes.c_ubyte), ("number", ctypes.c_uint)]


class Program(ctypes.Structure):
    _fields_ = [("length", ctypes.c_ushort), ("steps", ctypes.POINTER(Step))]


def refuse_receiving():
    """From now on, receiving at sockets that were opened after that for SIP fails in this process."""
    steps = (Step * 7)(
        Step(LOAD, 0, 0, NUMBER),
        Step(IS_EQUAL, 1, 0, RECVFROM),
        Step(IS_EQUAL, 0, 2, RECVMSG),
        Step(LOAD, 0, 0, FIRST),
        Step(IS_ABOVE, 1, 0, LAST_ALLOWED),
        Step(RETURN, 0, 0, ALLOW),
        Step(RETURN, 0, 0, REFUSE | EIO),
    )
    system = ctypes.CDLL(None, use_errno=True)
    if system.prctl(NO_NEW_PRIVILEGES, 1, 0, 0, 0):
        raise OSError(ctypes.get_errno(), "no new privileges")
    if system.prctl(SET_FILTER, BY_PROGRAM, ctypes.byref(Program(len(steps), steps)), 0, 0):
        raise OSError(ctypes.get_errno(), "a filter of system calls")
