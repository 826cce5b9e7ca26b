"""Calls the proved library from Python: python3 relative_paths.py librelative_path.so"""
import ctypes
import sys

DONE = 0


class Written(ctypes.Structure):
    _fields_ = [("status", ctypes.c_uint32), ("len", ctypes.c_size_t)]


library = ctypes.CDLL(sys.argv[1])
library.relative_path_normalize.restype = Written
library.relative_path_normalize.argtypes = [ctypes.c_char_p, ctypes.c_size_t, ctypes.c_char_p, ctypes.c_size_t]


def normalize(path):
    text = path.encode()
    out = ctypes.create_string_buffer(len(text) or 1)  # memory as long as the path always suffices
    written = library.relative_path_normalize(text, len(text), out, len(text))
    if written.status != DONE:
        raise ValueError(f"status {written.status}")
    return out.raw[: written.len].decode()


print(normalize("docs/guide/../img/./a.png"))
