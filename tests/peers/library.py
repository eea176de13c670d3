"""The two C calls, and versions of them that are wrong on purpose."""
import ctypes
import struct

ROOM = 64
FILL = bytes(0xA0 + i % 64 for i in range(ROOM))


class Library:
    """The calls of a shared object. Each answers the call's number and what the buffer holds afterwards, all 64 bytes of it, `room` of which
    the call was told of."""

    def __init__(self, path):
        calls = ctypes.CDLL(path)
        word, data = ctypes.c_uint64, ctypes.c_char_p
        self.c_point, self.c_count = calls.hisowake_point, calls.hisowake_window_count
        self.c_point.restype = self.c_count.restype = word
        self.c_point.argtypes = (data, word, word, ctypes.c_void_p, word)
        self.c_count.argtypes = (data, word, word, word, data, word, ctypes.c_void_p, word)
        self.out = ctypes.create_string_buffer(ROOM)

    def point(self, plan, index, room=48):
        self.out.raw = FILL
        code = self.c_point(plan, len(plan), index, self.out, room)
        return code, self.out.raw

    def count(self, plan, start, count, window, room=16):
        self.out.raw = FILL
        code = self.c_count(plan, len(plan), start, count, window, len(window), self.out, room)
        return code, self.out.raw


def buffer_after(written):
    """What the buffer holds after a call that writes these bytes."""
    return written + FILL[len(written) :]


def numbers(data):
    return struct.unpack(f">{len(data) // 8}Q", data)


# ---- wrong libraries: a right one, whose answers are changed


class Wrong:
    def __init__(self, library):
        self.library = library
        self.calls = 0

    def point(self, plan, index, room=48):
        return self.library.point(plan, index, room)

    def count(self, plan, start, count, window, room=16):
        return self.library.count(plan, start, count, window, room)

    def now_and_then(self, turns):
        self.calls += 1
        return self.calls % turns == 0


def change_byte(data, place, by):
    return data[:place] + bytes([data[place] ^ by]) + data[place + 1 :]


class WrongPoint(Wrong):
    """The first axis has its least bit flipped at one index in a thousand."""

    def point(self, plan, index, room=48):
        code, out = super().point(plan, index, room)
        return (code, change_byte(out, 7, 1)) if code == 0 and index % 1000 == 617 else (code, out)


class WrongRefusal(Wrong):
    """One refusal of one call, "point" or "count", has the next number."""

    def __init__(self, library, call, number):
        super().__init__(library)
        self.call, self.number = call, number

    def point(self, plan, index, room=48):
        code, out = super().point(plan, index, room)
        return code + (self.call == "point" and code == self.number), out

    def count(self, plan, start, count, window, room=16):
        code, out = super().count(plan, start, count, window, room)
        return code + (self.call == "count" and code == self.number), out


class Careless(Wrong):
    """One refused call in a hundred changes a byte of the buffer."""

    def point(self, plan, index, room=48):
        code, out = super().point(plan, index, room)
        return (code, change_byte(out, 0, 1)) if code != 0 and self.now_and_then(100) else (code, out)

    def count(self, plan, start, count, window, room=16):
        code, out = super().count(plan, start, count, window, room)
        return (code, change_byte(out, 0, 1)) if code != 0 and self.now_and_then(100) else (code, out)


class WrongCount(Wrong):
    """One count in a hundred has the least bit of a byte flipped: of S at 7, of the bound at 15, beyond what is written at 16."""

    def __init__(self, library, place):
        super().__init__(library)
        self.place = place

    def count(self, plan, start, count, window, room=16):
        code, out = super().count(plan, start, count, window, room)
        return (code, change_byte(out, self.place, 1)) if code == 0 and self.now_and_then(100) else (code, out)
