"""The one door to what isn't ours: other processes, their files and sockets, and programs of others that read these.

`door` reads files, links and folders, `web` asks a server, `programs` runs others' programs and `held` those that stop
a process; `budget` has how much one look may take of all that. What isn't read raises Refused, which says why.
"""
