"""The frames that threads and tasks of Python stand in, and what these say by their names, files and lines alone: that
is found out once for all that stand at one place.
"""
from __future__ import annotations

import os
import re
from dataclasses import dataclass
from functools import lru_cache
from itertools import takewhile
from typing import Any, Dict, List, NamedTuple, Optional, Sequence, Tuple

from ...core.sketch import frame

STANDARD = re.compile(r"/lib(?:64)?/python3(?:\.\d+)?/(?!(?:site|dist)-packages/)(.*)$|^<frozen (.*)>$")
# The modules of the library that are written in Python, of 3.8 to 3.14.
MODULES = frozenset(
    "__future__ _aix_support _android_support _apple_support _bootlocale _bootsubprocess _collections_abc _colorize "
    "_compat_pickle _compression _dummy_thread _ios_support _markupbase _opcode_metadata _osx_support _py_abc "
    "_py_warnings _pydatetime _pydecimal _pyio _pylong _pyrepl _sitebuiltins _strptime _threading_local _weakrefset "
    "abc aifc annotationlib antigravity argparse ast asynchat asyncio asyncore base64 bdb binhex bisect bz2 cProfile "
    "calendar cgi cgitb chunk cmd code codecs codeop collections colorsys compileall compression concurrent "
    "configparser contextlib contextvars copy copyreg crypt csv ctypes curses dataclasses datetime dbm decimal "
    "difflib dis distutils doctest dummy_threading email encodings ensurepip enum filecmp fileinput fnmatch formatter "
    "fractions ftplib functools genericpath getopt getpass gettext glob graphlib gzip hashlib heapq hmac html http "
    "idlelib imaplib imghdr imp importlib inspect io ipaddress json keyword lib2to3 linecache locale logging lzma "
    "mailbox mailcap mimetypes modulefinder msilib multiprocessing netrc nntplib ntpath nturl2path numbers opcode "
    "operator optparse os pathlib pdb pickle pickletools pipes pkgutil platform plistlib poplib posixpath pprint "
    "profile pstats pty py_compile pyclbr pydoc pydoc_data queue quopri random re reprlib rlcompleter runpy sched "
    "secrets selectors shelve shlex shutil signal site sitecustomize smtpd smtplib sndhdr socket socketserver sqlite3 "
    "sre_compile sre_constants sre_parse ssl stat statistics string stringprep struct subprocess sunau symbol "
    "symtable sysconfig tabnanny tarfile telnetlib tempfile test textwrap this threading timeit tkinter token "
    "tokenize tomllib trace traceback tracemalloc tty turtle turtledemo types typing unittest urllib usercustomize uu "
    "uuid venv warnings wave weakref webbrowser wsgiref xdrlib xml xmlrpc zipapp zipfile zipimport zoneinfo".split()
)
PACKAGE = re.compile(r"/(?:site|dist)-packages/(.*)$")
# Frames of the library that begin the work of a thread, a task or a worker.
BEGINS = re.compile(r"threading\.(Thread\.)?(_bootstrap|_bootstrap_inner|run)$|asyncio\.events\.Handle\._run$"
                    r"|concurrent\.futures\.(thread\.(_WorkItem\.run|_worker)|process\._process_\w+)$"
                    r"|multiprocessing\.queues\.(Queue\.)?_feed$"
                    r"|multiprocessing\.(pool\.(worker|mapstar)|process\.BaseProcess\.(run|_bootstrap))$")
FORKED = "multiprocessing.process.BaseProcess._bootstrap"  # what stands outside of it is what the parent did
WORKERS = re.compile(r"concurrent\.futures\.(thread\._worker|process\.(_process_worker|_ExecutorManagerThread\.run"
                     r"|_queue_management_worker))$"
                     r"|multiprocessing\.pool\.(worker|(\w+\.)?_handle_(tasks|results|workers))$"
                     r"|multiprocessing\.queues\.Queue\._feed$|logging\.handlers\.QueueListener\._monitor$")
GETS = re.compile(r"(multiprocessing\.)?queues?\.\w+\.get$|threading\.Condition\.wait$|selectors\."
                  r"|multiprocessing\.connection\.(wait$|.*\.(recv|recv_bytes|_recv|_recv_bytes|poll|_poll)$)"
                  r"|multiprocessing\.synchronize\.\w+\.__enter__$|multiprocessing\.pool\.\w+\._wait_for_updates$"
                  r"|concurrent\.futures\.process\._ExecutorManagerThread\.wait_result_broken_or_wakeup$"
                  r"|logging\.handlers\.QueueListener\.dequeue$|multiprocessing\.process\.")
WORKER = re.compile(r"concurrent\.futures\.process\._process_worker$|multiprocessing\.pool\.worker$")  # of a pool
RUNS = re.compile(r"\.(Thread|_WorkItem)\.run$")  # frames that call what a thread was made for
KEPT = 8192  # places of which is kept what their names say


@dataclass
class PythonFrame:
    """A frame: `at` is MODULE.FUNCTION, `has` what the state knows of its variables, `kind` whose code it is."""

    at: str
    file: str
    line: int
    has: Dict[str, Any]
    kind: str  # "own", "package" or "standard"
    call: Optional[Dict[str, Any]] = None


class PythonStack(NamedTuple):
    """What the frames of a thread or a task say by where they are. `own` has the texts of the job's own frames, `names`
    the names of all, and `standard` those of the standard library from the innermost on, up to the first of other code.
    `called` is the number of the frame of the library that other code has called, if it waits in one, `package` of the
    one of a package that the job's own code has called, and `runs` of the one that runs an event loop until a task
    ends. Outside of the first `forked` stands what a parent did. `odd` is the name of a frame that isn't of its file.
    """

    own: Tuple[str, ...]
    names: Tuple[str, ...]
    standard: Tuple[str, ...]
    called: Optional[int]
    package: Optional[int]
    runs: Optional[int]
    forked: int
    odd: Optional[str]
    has_own: bool
    is_idle_loop: bool  # a thread waits for the events of a loop: nothing else of asyncio calls a selector
    is_job: bool  # of a process of a pool
    is_worker: bool  # of one that takes what comes next for a pool or a queue
    is_taking: bool  # such a one stands in a call of the library that does so


def stack_of(frames: Sequence[PythonFrame]) -> PythonStack:
    """Returns what frames say by where they are."""
    return stack_at(tuple([(line.at, line.file, line.line, line.kind) for line in frames]))


@lru_cache(maxsize=KEPT)
def stack_at(places: Tuple[Tuple[str, str, int, str], ...]) -> PythonStack:
    """Returns what the places of frames say."""
    frames = [PythonFrame(name, file, line, {}, kind) for name, file, line, kind in places]
    names = tuple(line.at for line in frames)
    standard = standard_names(frames)
    runs = next((number for number, name in enumerate(names) if name.endswith(".run_until_complete")), None)
    is_handler = any(name.endswith("._handle_workers") for name in names)
    taking = list(takewhile(GETS.match, names))
    outer = names[len(taking):]
    return PythonStack(
        own_frames(frames), names, standard,
        len(standard) - 1 if standard and not RUNS.search(standard[0]) else None, package_called(frames), runs,
        names.index(FORKED, 1) if FORKED in names[1:] else len(names),
        next((line.at for line in frames if not is_of_file(line.at, line.file)), None),
        any(line.kind == "own" for line in frames),
        len(names) > 1 and names[0].startswith("selectors.") and names[1].startswith("asyncio."),
        any(map(WORKER.match, names)), is_handler or outer != () and WORKERS.match(outer[0]) is not None,
        is_handler or taking != [])


def standard_names(frames: List[PythonFrame]) -> Tuple[str, ...]:
    """Returns the names of the frames of the standard library from the innermost on, up to the first of other code."""
    inner = takewhile(lambda line: line.kind == "standard" and (line is frames[0] or not BEGINS.match(line.at)), frames)
    return tuple(line.at for line in inner)


def package_called(frames: List[PythonFrame]) -> Optional[int]:
    """Returns the number of the frame of a package that the job's own code has called, such as that of a pool."""
    number = next((number for number, outer in enumerate(frames[1:]) if outer.kind == "own"), None)
    return number if number is not None and frames[number].kind == "package" and frames[0].kind != "own" else None


def own_frames(frames: List[PythonFrame]) -> Tuple[str, ...]:
    """Returns the texts of the job's own frames from the topmost on. Where it has none, those of packages, else of the
    library that began the thread."""
    own = [line for line in frames if line.kind == "own"]
    if all(line.at.endswith(".<module>") for line in own):
        own = [line for line in frames if line.kind != "standard"]
    if not own:
        ends = [number for number, line in enumerate(frames) if number and BEGINS.match(line.at)]
        last = ends[0] if ends else len(frames)
        own = frames[last:last + 1] if frames[last:] and frames[last].at.endswith("_feed") else frames[last - 1:last]
    return tuple(frame(line.at, line.file.split("/")[-1], line.line) for line in own)


# A frame and its file


@lru_cache(maxsize=65536)
def is_of_file(name: str, path: str) -> bool:
    """Whether a function has the name of the module of the library in whose file it is, or is of one that `python3 -m`
    runs. A file in the place of the library's is one of its modules."""
    found = STANDARD.search(path)
    module = re.sub(r"(/__init__)?\.py$", "", found[1] or found[2]).replace("/", ".") if found else ""
    return not found or module.split(".")[0] in MODULES and name.startswith((f"{module}.", "__main__."))


@lru_cache(maxsize=65536)
def kind_of(path: str) -> str:
    if STANDARD.search(path):
        return "standard"
    return "package" if PACKAGE.search(path) else "own"


def frame_in_file(file: str, line: str, function: Optional[str], is_short: bool = False) -> PythonFrame:
    """Returns a frame as tools print it that name no module, with that of its file. A short file is one of the library,
    by its path below it."""
    match = STANDARD.search(file) or PACKAGE.search(file)
    inner = file if is_short else (match[1] or "") if match else os.path.basename(file)
    module = re.sub(r"\.py$|/__init__\.py$", "", inner).replace("/", ".")
    return PythonFrame(f"{module}.{function or '?'}", file, int(line) if line.isdecimal() else 0, {},
                       "standard" if is_short else kind_of(file))
