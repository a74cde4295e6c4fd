"""Go."""
from __future__ import annotations

from ..descriptor import Assumption, Descriptor, Option

SYSTEM = Descriptor(
    name="go",
    called="Go",
    target="HOST:PORT",
    manual="""Ar HOST : Ns Ar PORT
A program that serves net/http/pprof.
A PID in its place is read as the kernel sees it, or ended by
.Fl -kill .""",
    states="texts of pprof's goroutine?debug=2, seconds apart, or of SIGQUIT",
    by="a Go program that serves pprof",
    shows="places of goroutines; who holds what, you say",
    lacks="`net/http/pprof`",
    stops="the program stops while it prints its goroutines: twice, 0.6 s with 100,000 of them",
    options=(Option("kill", "PID --kill", "end the program by SIGQUIT, for the goroutines that it then writes to its "
                    "stderr", is_alone=True),),
    noun="goroutine",
    sites={"the Go program": "goroutine"},
    operations="""sync.Mutex.Lock sync.RWMutex.Lock sync.RWMutex.RLock sync.WaitGroup.Wait sync.Cond.Wait select sleep
        net/http.Get""",
    for_others="WaitGroup|http",
    assumptions={
        "empty-select": Assumption(
            "main waits in an empty select by intent, as that of a service does", "a main that was to go on"),
    },
)
