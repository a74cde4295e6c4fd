"""What tests know of Go, beside its kept cases."""
import re

from common import FRAME

# Of how many kept stalls the likely answer has all roots, and nobody who isn't stuck; and of how many each root as it
# is.
LIKELY, EXACT = 48, 22
# Its stalls of examples/: the folder, the words for stuck and slow, the commands, and what is said beforehand.
LIVE = {
    "go": ("go", ["stuck", "slow"], ["go"],
           "0.6 s with 100,000"),
}
# Kept stalls that are begun, looked at and cured, with the commands that they need.
CURED, CURED_BY = """
    stalls:pass stalls:never stalls:slots stalls:locks stalls:couriers stalls:guest stalls:readers stalls:grow
    stalls:notice stalls:requests stalls:answers reach:ledger reach:crawl reach:served reach:relay paused:paused
    hub:stuck lease:stuck""", ["go"]
SECOND = ("goroutine 5 [running]", "")
# Changes of the state of its example: what changes, a process as it is then, the pattern, its replacement, and the
# marks around it.
CHANGES = {
    "go": [
        ("a goroutine that sleeps", "main.load/19 runs", r"19 \[chan send\]", "19 [sleep]"),
        ("a nil channel", "main.load/19 any", r"19 \[chan send\]", "19 [chan send (nil chan)]"),
        ("a state that isn't known", "main.ring/25 unknown", r"25 \[chan receive\]", "25 [waits for tea]"),
        ("a read of a device", "main.ring/25 unknown", r"(25 \[)chan receive\]:\nmain",
         r"\1IO wait]:\nnet.(*conn).Read(0x1)\n\t/go/src/net/net.go:1 +0x1\nmain"),
        ("a function that no fact speaks of", "main.fill/19 unknown", r"^main\.load\(", "main.fill("),
        ("another line in the second state", "main.ship/24 unknown", "depot.go:70", "depot.go:71", SECOND),
        ("a wait that has begun between", "main.ship/24 unknown", r"24 \[chan receive\]",
         "24 [chan receive, 3 minutes]", ("goroutine 24 [", "]:")),
        ("a wait that lasts", "main.ship/24 any main.load/19 main.load/20 main.watch/21 main.pick/22 main.main/1",
         r"24 \[chan receive\]", "24 [chan receive, 3 minutes]", SECOND),
        ("a goroutine that isn't in the second state", "main.ship/24 unknown", r"(?s)^goroutine 24 .*?\n\n", "",
         SECOND),
        ("a goroutine that a cut may have removed", "main.ship/24 unknown", r"(?s)^goroutine 24 .*", "", SECOND),
    ],
}
# Values that could be more than it takes: where they stand, and what comes there.
ONCE = [
    (r"(?<=go:)\d+", "9" * 5000),
]
NOBODY = r"(?:chan receive \(nil chan\)|chan send \(nil chan\)|select \(no cases\)|[^],]* \(leaked\))"
BYSTANDER = """goroutine 9001 [sleep]:
time.Sleep(0x34630b8a000)
\truntime/time.go:195 +0x135
main.bystander()
\tbystander/bystander.go:7 +0x25
created by main.main
\tbystander/bystander.go:3 +0x47
"""


def shows(text, process):
    """A goroutine has a heading with a state, and below it the topmost call of the job's own with its line; one that
    nobody can end has a heading that says so."""
    number, found = re.escape(process.name.rsplit("/", 1)[1]), FRAME.fullmatch(process.frames[0])
    is_alone = not process.whom and not any(reason.startswith("fact ") for reason in process.because)
    state = NOBODY if is_alone else "[^]]*"
    block = re.search(rf"^goroutine {number} (?:\S+ )*?\[{state}(?:, [^]]*)?\]:\s*(?:\n.+)+", text, re.M)
    function, file = re.escape(found["function"]), re.escape(f"{found['file']}:{found['line']}")
    place = rf"\n(?:created by )?{function}[ (\n].*\n?\t\S*{file}\b"
    return block is not None and re.search(place, block[0]) is not None
