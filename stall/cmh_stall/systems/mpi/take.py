"""How the ranks of a job are taken: by the records of their calls, where these are, or else by gdb or eu-stack."""
from __future__ import annotations

import os
import re
import shutil
import sys
from typing import Collection, Iterator, List, Sequence, Tuple

from cmh_proc.process import environment_of, files_in_memory, name_of, pids

from ..taking import HOME, Capture, Part, Sight, Taker

RANK = re.compile(rb"(?:OMPI_COMM_WORLD|PMIX?|MV2_COMM_WORLD)_RANK|SLURM_PROCID")


class MpiTaker(Taker):
    def captures(self, targets: List[str], wishes: Collection[str]) -> List[Capture]:
        names = [os.path.basename(target) for target in targets]
        if any(map(has_record, names)):
            return [Capture(self.name, names, "nothing is stopped: the records of cmh_mpi.so are read, twice",
                            [sys.executable, f"{HOME}/cmh_mpi_reader.py"])]
        ranks = [pid for name in names for pid in pids_of(name)]
        if shutil.which("gdb") is None and shutil.which("eu-stack"):
            return [Capture(self.name, names, "eu-stack stops each rank in turn while it reads it: twice, some 0.04 s. "
                            "It shows no arguments, as gdb would (Debian: apt-get install gdb)", holds=ranks)]
        return [Capture(self.name, names, holds=ranks)]

    def commands(self, pid: int, name: str, words: List[str]) -> Iterator[Tuple[str, str, str]]:
        if any(map(RANK.fullmatch, environment_of(pid))):
            yield f"rank of {name}", f"cmh-stall mpi {name}", "mpi and linux see inside"

    def those_to_ask(self, pids: Sequence[int]) -> List[int]:
        return [pid for pid in pids if has_record(str(pid))]

    def more(self, part: Part, sight: Sight) -> Iterator[str]:
        if sight.is_open and "uncounted" in sight.hows():
            yield "Partners and tags are shown of a job that was begun with cmh_mpi.so: the page on MPI says how"


def has_record(target: str) -> bool:
    """Whether a rank, named by its number or its executable file, has a record of cmh_mpi.so."""
    return any(files_in_memory(int(pid), "cmh_mpi") for pid in pids_of(target))


def pids_of(target: str) -> List[str]:
    """The numbers of the processes that are named by one, or by their executable file."""
    return [target] if target.isdigit() else [str(pid) for pid in pids() if name_of(pid) == target]


TAKER = MpiTaker
