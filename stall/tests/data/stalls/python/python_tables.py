"""What tests know of Python, beside its kept cases."""
import json

from changes import APART

# Of how many kept stalls the likely answer has all roots, and nobody who isn't stuck; and of how many each root as it
# is.
LIKELY, EXACT = 96, 58
# Its stalls of examples/: the folder, the words for stuck and slow, the commands, and what is said beforehand.
LIVE = {
    "python": ("python", ["stuck", "slow"], ["pgrep"],
               "a signal wakes the thread of cmh_state"),
}
# Kept stalls that are begun, looked at and cured.
CURED, CURED_BY = """
        locks held_locks full_pipe bank transfers report pool_waits orphan_lock mails orders rooms boats berths named
        booth_hub booth_server no_token held_async_locks first_done log_lock""", ["python3"]
# Values that could be more than it takes: where they stand, and what comes there.
ONCE = [
    (r'"line": \d+', '"line": 1e999'),
    (r'"began": [\d.]+', f'"began": {"9" * 400}'),
    (r'"signal": \d+', '"signal": []'),
    (r'"unseen": \[\]', '"unseen": 7'),
]
OF_STATE = "cmh-state "
OF_PYTHON = {"of": APART, "thread": APART, "name": "MainThread", "native": APART, "daemon": False, "main": True,
             "moved": False, "stops": 1, "spent": 0, "new_stops": 0, "asleep": True, "holds": [], "loop": None,
             "call": {"words": "time.sleep", "how": "call", "on": {"type": "module", "id": "0x7fecfa0e73d0"},
                      "module": "time", "function": "sleep", "arguments": None},
             "frames": [{"in": "bystander.<module>", "file": "/srv/bystander.py", "line": 7}]}


def one_more(text):
    """A process of its own is shown before the first one of each look."""
    rows = []
    first = None
    for row in text.split("\n"):
        tree = json.loads(row[len(OF_STATE):]) if row.startswith(OF_STATE) else {}
        first = first or tree.get("pid")
        if "version" in tree and tree["pid"] == first:
            none = dict.fromkeys({"queues"} & tree.keys(), 0)  # (it has no queue of multiprocessing)
            head = {**tree, **none, "process": "bystander", "pid": APART, "parent": 1}
            rows += [OF_STATE + json.dumps(it) for it in (head, OF_PYTHON, {"end": APART, "rows": 1})]
        rows.append(row)
    return "\n".join(rows)
