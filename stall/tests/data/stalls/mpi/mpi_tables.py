"""What tests know of MPI, beside its kept cases."""
import re

from common import FRAME

# Of how many kept stalls the likely answer has all roots, and nobody who isn't stuck; and of how many each root as it
# is.
LIKELY, EXACT = 74, 60
# Its stalls of examples/: the folder, the words for stuck and slow, the commands, and what is said beforehand.
LIVE = {
    "mpi": ("mpi", ["40000 0", "40 600"], ["mpicc", "mpirun", "gdb"],
            "some 0.6 s"),
    "mpi_records": ("mpi_records", ["40000 0", "40 600"], ["mpicc", "mpirun"],
                    "nothing is stopped: the records of cmh_mpi.so are read"),
}
MISSING = "gdb", "gdb"  # a command that a look needs, and its package
# Kept stalls that are begun, looked at and cured, with the commands that they need.
CURED, CURED_BY = "send_ring:stuck waitall:stuck mismatch:stuck token:stuck window:stuck sendrecv:stuck", \
    ["mpicc", "mpirun"]

# Changes of the state of its example: what changes, a process as it is then, the pattern, its replacement, and the
# marks around it.
CHANGES = {
    "mpi": [
        ("a receive from any source", "rank-4 unknown", r"(?<=receive_from \(from=)0,", "-1,"),
        ("a receive from a rank that isn't in the state", "rank-4 unknown", r"(?<=receive_from \(from=)0,", "8,"),
        ("a rank that was in another call before", "rank-4 runs",
         r"(?<=receive_from \(from=)0,", "1,", ("", "receive_from (from=0,")),
        ("a rank that the second reading lacks", "rank-4 unknown",
         r"(?s)^[^\n]*RANK=4\n.*?(?=^# gdb)", "", ("RANK=7\n", "")),
        ("a send to another rank", "rank-0 any rank-6", r"(?<=in send_to \(to=)1,", "6,"),
        ("a barrier that all but one have come to", "rank-5 all rank-6",
         r"in PMPI_(?!Barrier)\w+ (.*\n#\d+ +\S+) in \w+ ", r"in PMPI_Barrier \1 in meet_all "),
        ("a sum over ranks that no fact names", "rank-5 unknown", " PMPI_Barrier ", " PMPI_Allreduce "),
        ("a sleep inside MPI_Finalize", "rank-6 all rank-0 rank-1 rank-2 rank-3 rank-4 rank-5 rank-7",
         r" in write_files \(.*", " in ompi_mpi_finalize () from /lib/mpi.so"),
        ("a look for a message", "rank-7 unknown", " PMPI_Waitany ", " PMPI_Iprobe "),
    ],
}
# Values that could be more than it takes: where they stand, and what comes there.
ONCE = [
    (r"(?<=RANK=)\d+", "9" * 5000),
]


def shows(text, process):
    """A rank has a heading, and below it the MPI call or the sleep that it is in and the place of the job's own that
    calls it. Or it has a record in both readings, of the same call."""
    if text.startswith("cmh-mpi "):
        return record_shows(text, process)
    rank = process.name.split("-")[1].split("/")[0]  # (of a thread that of its process)
    blocks = [it for it in re.split(r"^(?=# gdb )", text, flags=re.M) if re.match(rf"# gdb .*RANK={rank}\b", it)]
    found = FRAME.fullmatch(process.frames[0])
    place = f" at {found['file']}:{found['line']}" if found else process.frames[0]
    call = re.sub("^timed ", "", process.operation)
    call = call.split(" ")[0].split("_")[-1].lower()  # (the half of a call stands behind it)
    return any(place in re.sub(r"\n {4,}", " ", it) and call in it.lower() for it in blocks)


def record_shows(text, process):
    number, tid = re.fullmatch(r"rank-(\d+)(?:/(\d+))?", process.name).groups()
    found = []
    for reading in text.split('"reading": ')[1:]:
        rows = re.findall(rf'^cmh-mpi \{{"pid": \d+, "rank": {number}, .*', reading, re.M)
        name = process.operation.replace("MPI_", "", 1) if process.count else "[^\"]*"
        calls = process.count or "[0-9]+"  # (of a poll, which may be of other things in turn, facts alone decide)
        wait = rf'"calls": {calls}, [^{{}}]*"name": "{name}", "kind": [1-9]'
        first, _, second = calls.partition("/")
        if second and process.operation in ("MPI_Iprobe", "MPI_Test"):  # (of one that polls for one thing)
            wait = rf'"calls": {first}, [^{{}}]*"name": "{name}", "kind": 11, "entered": {second}\b'
        elif second:  # (of one outside of MPI, with its switches)
            wait = rf'"switches": {second}, "call": "(?:private|shared)'
        thread = rf'"tid": {tid or ".*?"}, [^{{}}]*{wait}'
        found.append(len(rows) == 1 and re.search(thread, rows[0]) is not None)
    return found == [True, True]
