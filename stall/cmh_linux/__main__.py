"""The command `python3 cmh_linux`, where only this folder of the tools is."""
import os
import sys

sys.dont_write_bytecode = True  # (nothing is written, also not beside this)
if not __package__:  # (its own folder is where modules are looked for, and not the one above)
    sys.path[0] = os.path.dirname(os.path.dirname(os.path.abspath(__file__)))

from cmh_linux import main  # noqa: E402

sys.exit(main())
