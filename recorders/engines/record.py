#!/usr/bin/env python3
"""record.py ENGINE PROGRAM [--sessions N] [--seed S] [--keep FOLDER] [--server] [--weak] [--seconds N]: random sessions of an engine,
judged.

ENGINE is one of these; what each needs is installed from Debian 12 by apt-get where it is missing (as root), and built:

    list_crdt     the Python list CRDT in list_crdt.py; nothing
    yjs           Yjs, recorded by yjs.mjs; nodejs, node-yjs
    prosemirror   ProseMirror, by way of its collab plugin, recorded by prosemirror.mjs; nodejs, node-prosemirror-transform
    crdts         the list of the Rust crate crdts, recorded by crdts.rs; cargo, librust-crdts-dev
    libinfinity   libinfinity, recorded by libinfinity.c; gcc, pkg-config, libinfinity-0.7-dev
    crdt_el       crdt.el, recorded by crdt_el.el; emacs-nox, elpa-crdt
    FILE.py       one of your own, a Python module as own_engine.py says; nothing
    COMMAND       one of your own in any language: a program's path, or a command with its words, as docs/engines.md says; nothing

Prints, for each kind of session, how many were tried, how large they were, and what the program said of how many. Where
some were not accepted it makes the shortest of each verdict smaller, as long as the verdict stays, and prints that trace;
with --keep it writes these traces into the folder, and of each kind the accepted one with most receipts as it is. By
default it runs within a minute, with Debian's cargo, whose build of crdts is slower, in a minute and a half. It ends with
status 0 where all sessions are accepted, 1 where some are not, and 2 where one gave no answer, or something else is wrong:
so where a COMMAND does not answer a session with its trace, which is then made smaller and printed.

With --weak, of an engine that promises the weak list specification alone, as one with a server that orders (Jupiter), sessions pass of
which that holds, though strong doesn't; these are counted as `weak alone`."""
import os
import sys


def end(*fault):
    """Ends with 2 at what nobody has thought of, also while this is loaded: Python's own status is one that says something of sessions."""
    sys.__excepthook__(*fault)
    os._exit(2)


if __name__ == "__main__":
    sys.excepthook = end
    if sys.version_info < (3, 9):
        sys.stderr.write("record.py: this needs Python 3.9 or later, and is run by %d.%d\n" % sys.version_info[:2])
        sys.exit(2)
    from random_sessions import run_command
    run_command(__doc__.split("\n")[0])
