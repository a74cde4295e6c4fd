"""The ranks of an MPI job."""
from __future__ import annotations

from ..descriptor import Assumption, Descriptor, Units

SYSTEM = Descriptor(
    name="mpi",
    called="MPI",
    target="PROGRAM",
    manual="""Ar PROGRAM | PID ...
The ranks on this machine: by the records that
.Pa cmh_mpi.so
keeps, which stops nothing, or else by
.Nm gdb ,
or else by
.Nm eu-stack .""",
    states="what cmh_mpi_reader.py prints of the ranks, or what gdb does, twice",
    by="the ranks of a job, by their records or gdb",
    shows="calls, partners, communicators",
    lacks="gdb, or better `cmh_mpi.so`",
    stops="gdb stops each rank in turn while it reads it: twice, some 0.6 s",
    needs={"gdb": "gdb"},
    noun="rank",
    units=Units(whole="the MPI job", has="its ranks"),
    operations="""MPI_Recv MPI_Send MPI_Ssend MPI_Sendrecv MPI_Probe MPI_Wait MPI_Waitall MPI_Waitany MPI_Waitsome
        MPI_Test MPI_Iprobe MPI_Barrier MPI_Bcast MPI_Reduce MPI_Allreduce MPI_Gather MPI_Allgather MPI_Scatter
        MPI_Alltoall MPI_Alltoallv MPI_Finalize MPI_Win_fence MPI_Win_lock MPI_Win_free MPI_File_write_at_all""",
    shares="inner",
    assumptions={
        "one-thread": Assumption(
            "only one thread of a rank sends and receives for it", "a second thread that calls MPI"),
        "finalize": Assumption(
            "MPI_Finalize returns once all ranks have come to it", "a library that lets it return before"),
        "computes": Assumption(
            "a rank that computes doesn't look for a message between its steps", "a call of MPI_Test there"),
        "meet": Assumption(
            "ranks that are at different collective calls of a communicator don't meet",
            "a library that takes two calls for one"),
        "late": Assumption(
            "a collective call waits for one at least of those that haven't come to it",
            "a rank that has come, and passes nothing on"),
        "kept": Assumption(
            "a lock of a window is kept by its target, or by the first rank there or of all",
            "a library that has another one keep it"),
    },
)
