"""Which libraries belong to the system, and not to a program: for what unwinds stacks, and for what reads them."""
import re

OF_THE_SYSTEM = re.compile(r".*/(libc|libpthread|libstdc\+\+|libm|libgcc_s|librt|libdl|ld-linux-x86-64)[.-][^/]*")
