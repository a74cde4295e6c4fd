"""The limits of the program `cmh`, as docs/FORMATS.md has them."""
BYTES = 8_388_608  # of a dump
ENTRIES = 4_096  # of the sites, of the processes and of the messages in transit
DEPENDENTS = 65_536  # names in all lists together
LONGEST = 64  # characters of a name
DEPTH = 127  # of nested values
