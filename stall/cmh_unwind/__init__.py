"""Where a thread stands, by its stack in memory: ELF, DWARF's tables of call frames, and the unwinder. Nobody is held.

`elf` reads the headers of programs, `symbols` their names, `tables` what is said of call frames, by the numbers and
expressions of `cursor`; `modules` has what is mapped into a process, and `stack` unwinds a thread on x86-64. All bytes
may be those of somebody hostile: each number of them has a bound, and what isn't as compilers write it is Unclear.
"""
