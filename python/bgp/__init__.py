"""What the scripts of this repository have in common: BGP messages in octets, sessions, captures, network namespaces, and event files.

Each thing stands once. From below:

- wire: messages, read and written by the standards alone
- feed: UPDATEs of a table as real ones are; messages: UPDATEs as a session of another kind says them
- mrt, bmp, dumps, files: captures, record by record; which form a file has
- session: one end of a session over TCP; namespaces: where programs run beside each other
- eventfile: what an event file declares; program: what `replay run` makes of one

A script finds it by its folder: `sys.path.insert(0, os.path.join(os.path.dirname(os.path.abspath(__file__)), '..', 'python'))`, once,
in front of its imports; what it imports from its own folder needs none.
"""
