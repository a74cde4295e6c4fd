"""Prints what a heap dump of a JVM tells of waits that `jstack` doesn't show, for `take-jvm --heap`:

    python3 cmh_heap FILE [CODE]

FILE is of `jcmd PID GC.heap_dump FILE`, in the binary format HPROF, and CODE what `jcmd PID Compiler.codelist` prints
then: without it, it isn't said who has a path of references to what. A row is a line '# cmh heap {..}' with all its
keys: `waits` is of which kind a wait is, `for` are those that have to end it, `besides` who else has what it waits for
in a frame, and `reach` who has a path of references to what it waits at, or null. Threads stand in it as [number,
address], which is how jstack prints them too: "name" #number .. tid=address. Objects move, so no address of one is
printed.
"""
