"""What tests know of the JVM, beside its kept cases."""
import re

from common import FRAME

from cmh_stall.core.sketch import SYSTEM

# Of how many kept stalls the likely answer has all roots, and nobody who isn't stuck; and of how many each root as it
# is.
LIKELY, EXACT = 125, 77
# Its stalls of examples/: the folder, the words for stuck and slow, the commands, and what is said beforehand.
LIVE = {
    "jvm": ("jvm", ["stuck", "slow"], ["javac", "jstack"],
            "0.6 s with 60 million"),
}
# Kept stalls that are begun, looked at and cured, with the commands that they need.
CURED, CURED_BY = """
    Stalls:Stalls:upgraders Stalls:Stalls:hand Stalls:Stalls:begun Stalls:Stalls:cross Stalls:Stalls:latch
    Stalls:Stalls:clerk Stalls:Stalls:price Stalls:Stalls:readers Stalls:Stalls:desks Stalls:Stalls:inner-lock
    Stalls:Stalls:class-crossed Stalls:Stalls:interruptible Kiosk:Kiosk:stuck Depot:Depot:orders Shop:Shop:stuck:0
    Gate:Gate:stuck:0 Importer:Importer:stuck:0 Ledger:Ledger:stuck Racks:Racks:stuck Rings:Rings:stuck
    Presser:Presser:stuck Tills:Tills:lost Till:Till:stuck Prices:Prices:stuck Crawler:Crawler:stuck
    Reach:Reach:log Heaps:Heaps:task Indexer:Indexer:stuck""", ["javac", "jstack", "jcmd"]
MISSING = "jstack", "default-jdk-headless"  # a command that a look needs, and its package
CLOSER, LATER = ('"closer"', '"counter"'), ("JNI global refs", "")
# Changes of the state of its example: what changes, a process as it is then, the pattern, its replacement, and the
# marks around it.
CHANGES = {
    "jvm": [
        ("a wait with a limit", "closer runs", r"WAITING \(parking", "TIMED_WAITING (parking", (*CLOSER, True)),
        ("a wait with a limit in one look", "closer unknown", r"WAITING \(parking", "TIMED_WAITING (parking", CLOSER),
        ("a lock whose owner isn't shown", "collector unknown", r"- <0x.*ReentrantLock.*", "- None"),
        ("a lock that no thread owns later", "collector unknown", r"- <0x.*ReentrantLock.*", "- None", LATER),
        ("a lock whose owners aren't shown", "collector unknown",
         r"   Locked ownable synchronizers:\n(?:\t- .*\n)+", "   Locked ownable synchronizers:\n"),
        ("a monitor that is given back", "counter unknown",
         r'(?s)("closer".*?)- parking to (.*?- locked <(\w+)>)', r"\1- waiting on <\3> (a Monitor)\n\t- parking to \2"),
        ("a monitor that is given back in one state", "counter unknown",
         r"(?s)- parking to (.*?- locked <(\w+)>)", r"- waiting on <\2> (a Monitor)\n\t- parking to \1", CLOSER),
        ("a monitor that two hold", "counter unknown", r"waiting to lock (.*\n.*Lambda\$8)", r"locked \1"),
        ("more processor time in the second state", "mailer unknown", r'("mailer".* cpu=)', r"\g<1>9", LATER),
        ("another line in the second state", "mailer unknown", r"Office.java:98", "Office.java:99", LATER),
        ("a thread that isn't in the second state", "mailer unknown", r'(?s)^"mailer".*(?="phone")', "", LATER),
        ("an object that the collector has moved", "printer any collector",
         r"(parking to wait for  <0x)(\w+)(?=.*Condition.*\n(?:.*\n)*?.*Office.print)", r"\g<1>f\2", LATER),
        ("a call that no fact speaks of",
         "mailer any main desk-1 desk-2 desk-3 printer collector closer counter auditor",
         "Office.send", "Office.receive"),
        ("a read of a device", "mailer unknown", r'(?s)("mailer".*?State: )\S+ \(parking\).*?LinkedBlockingQueue.take',
         r"\1RUNNABLE\n\tat A.read(Native Method)\n\tat B.b"),
    ],
}
# Values that could be more than it takes: where they stand, and what comes there.
ONCE = [
    (r"cpu=[\d.]+", "cpu=1.2.3"),
    (r"(?<=java:)\d+", "9" * 5000),
]
BELOW = re.compile(r"\n\s+at [^\n]*\n(?:.*\n)*?\s+- (?:waiting to lock|waiting to re-lock in wait\(\)|waiting on"
                   r"|parking to wait for|waiting on the Class initialization monitor for) ")
BYSTANDER = """\
"bystander" #9001 prio=5 os_prio=0 cpu=0.10ms elapsed=2.40s tid=0x7f0f54999990 nid=0x7ff9 sleeping [0x7f0f51fff000]
   java.lang.Thread.State: TIMED_WAITING (sleeping)
\tat java.lang.Thread.sleep(java.base/Native Method)
\tat Bystander.run(Bystander.java:7)

   Locked ownable synchronizers:
\t- None
"""


def shows(text, process):
    """A thread has the topmost frame of the job's own; one that waits for an owner says so below its first frame. If no
    thread has its name (any more), it is any thread."""
    name, found = re.sub(r" #\d+'*$", "", process.name), FRAME.fullmatch(process.frames[0])
    name = re.escape(name) if f'\n"{name}" ' in text else "[^\\n]*"
    place = f"{found['function']}({found['file']}:{found['line']})" if found else f"{process.frames[0]}("
    blocks = [it for it in re.findall(rf'^"{name}" [^\n]*(?:\n(?!")[^\n]*)*', text, re.M) if place in plain(it)]
    if SYSTEM not in process.because:
        return bool(blocks)
    return any(BELOW.search("\tat ".join(it.split("\tat ", 2)[:2])) for it in blocks)


def plain(block):
    """Returns the text of a thread without the modules that stand before its files."""
    return re.sub(r"\([^()\n]*/(?=[\w.$]+:\d+\))", "(", block)
