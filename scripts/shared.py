"""What the scripts in Python share: other scripts as modules, tools that may be missing, built programs, and ELF files."""
import importlib.machinery
import importlib.util
import os
import resource
import shutil
import struct
import subprocess
import sys

TOP = os.path.dirname(os.path.dirname(os.path.abspath(__file__)))
SKIPPED = 77  # the status of a script that did nothing


def script(*path):
    """Another script of the repository, as a module."""
    sys.dont_write_bytecode = True
    name = path[-1].replace("-", "_")
    loader = importlib.machinery.SourceFileLoader(name, os.path.join(TOP, *path))
    module = importlib.util.module_from_spec(importlib.util.spec_from_loader(name, loader))
    loader.exec_module(module)
    return module


def skip(why, left_out):
    """Says what is left out and why, and ends the script."""
    print(f"SKIPPED: {why}: {left_out}")
    sys.exit(SKIPPED)


def need(tools, left_out):
    """Ends the script where one of the tools is missing."""
    missing = [tool for tool in tools if not shutil.which(tool)]
    if missing:
        skip(" and ".join(missing) + (" is" if len(missing) == 1 else " are") + " missing", left_out)


def program(crate):
    """The path of a crate's program, which is built where it is not built from the present sources."""
    if subprocess.run([os.path.join(TOP, "scripts", "build"), crate], check=False).returncode != 0:
        sys.exit(f"{crate} is not built")
    return os.path.join(TOP, "crates", crate, "out", crate)


def children_time():
    """The processor time of all commands so far, in milliseconds."""
    used = resource.getrusage(resource.RUSAGE_CHILDREN)
    return 1000 * (used.ru_utime + used.ru_stime)


# ---- ELF files

def file_header(entry, segments, sections_at, sections, names=0):
    """The header of a file for x86-64 whose program headers stand behind it."""
    return b"\x7fELF\x02\x01\x01".ljust(16, b"\0") + struct.pack(
        "<HHIQQQIHHHHHH", 2, 62, 1, entry, 64, sections_at, 0, 64, 56, segments, 64, sections, names)


def program_header(flags, offset, address, size):
    return struct.pack("<IIQQQQQQ", 1, flags, offset, address, address, size, size, 0x1000)


def section_header(kind, offset, size, link=0, info=0, alignment=0, entry_size=0, name=0, flags=0, address=0):
    return struct.pack("<IIQQQQIIQQ", name, kind, flags, address, offset, size, link, info, alignment, entry_size)


def symbol(name, address, section=0xFFF1, size=0):
    """A global function."""
    return struct.pack("<IBBHQQ", name, 0x12, 0, section, address, size)
