"""aprs-net, imported once, in a process that forks for each run: forking.py SOCKET. A run begins in
a tenth of the time so. JSON tells its words, its folder, its environment and its mask; its standard
files come with that.
"""
import atexit
import json
import os
import pathlib
import socket
import subprocess
import sys
import tempfile
import time
from typing import IO, Any, Dict, List, Optional, Sequence

HEAD = 8  # bytes that say how long the JSON is
PIPE = 60_000  # bytes that a pipe surely takes at once
# variables that Python or the system's library reads when a process begins
FIRST = ("PYTHON", "LC_", "LANG")


def first_of(env: Dict[str, str]) -> Dict[str, str]:
    return {name: it for name, it in env.items() if name.startswith(FIRST)}


class Forking:
    """The process, as who asks for runs has it."""

    def __init__(self, env: Dict[str, str]) -> None:
        self.first = first_of(env)
        self.socket, other = socket.socketpair()
        words = [sys.executable, __file__, str(other.fileno())]
        # where who has made it is killed, it ends as its socket does
        self.process = subprocess.Popen(words, env=env, pass_fds=[other.fileno()],
                                        stdin=subprocess.PIPE, stdout=subprocess.DEVNULL)
        other.close()
        atexit.register(self.end)

    def end(self) -> None:
        self.socket.close()
        self.process.communicate()

    def can_run(self, keywords: Dict[str, Any]) -> bool:
        """Whether a run that is asked for so is one like another here."""
        return {*keywords} <= {"cwd", "env"} and first_of(keywords["env"]) == self.first

    def run(self, words: Sequence[str], given: bytes, env: Dict[str, str],
            cwd: Optional[pathlib.Path] = None) -> "subprocess.CompletedProcess[bytes]":
        """What a run prints and says to what it is given."""
        mask = os.umask(0)
        os.umask(mask)
        told = json.dumps([[*words], str(cwd or os.getcwd()), env, mask]).encode()
        with tempfile.TemporaryFile() as out, tempfile.TemporaryFile() as said, \
                input_of(given) as file:
            files = [it.fileno() for it in (file, out, said)]
            socket.send_fds(self.socket, [b"%*d" % (HEAD, len(told))], files)
            self.socket.sendall(told)
            status = int(self.socket.recv(HEAD))
            out.seek(0)
            said.seek(0)
            return subprocess.CompletedProcess(words, status, out.read(), said.read())


def input_of(given: bytes) -> IO[bytes]:
    """A pipe from which this is read; a file where it is too long."""
    if len(given) > PIPE:
        file: IO[bytes] = tempfile.TemporaryFile()
        file.write(given)
        file.seek(0)
        return file
    end, begin = os.pipe()
    os.write(begin, given)
    os.close(begin)
    return open(end, "rb")


def begin(told: List[Any], files: Sequence[int]) -> List[str]:
    """Makes this process one that was begun so; its words."""
    words, folder, env, mask = told
    os.chdir(folder)
    os.umask(mask)
    os.environ.clear()
    os.environ.update(env)
    time.tzset()
    for number, file in enumerate(files):
        os.dup2(file, number)
        os.close(file)
    sys.argv[1:] = words
    return sys.argv[1:]


def fork(asked: socket.socket) -> Optional[List[str]]:
    """Forks for each run that is asked for; the words of a run where this is its process."""
    while True:
        head, files, _, _ = socket.recv_fds(asked, HEAD, 3)
        if not head:
            return None
        told = json.loads(asked.recv(int(head), socket.MSG_WAITALL))
        child = os.fork()
        if not child:
            asked.close()
            return begin(told, files)
        for it in files:
            os.close(it)
        _, status = os.waitpid(child, 0)
        asked.send(b"%d" % os.waitstatus_to_exitcode(status))


def main() -> int:
    from aprsbook_tools import argv, cli, commands

    for name in [*commands.NAMES, *commands.HIDDEN]:
        argv.module_of(name)
    words = fork(socket.socket(fileno=int(sys.argv.pop(1))))
    return 0 if words is None else cli.main(words)


if __name__ == "__main__":
    sys.exit(main())
