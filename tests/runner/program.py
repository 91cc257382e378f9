"""Runs the program: once in a folder, or as a session that stays."""
import os
import subprocess
import sys

# Behind the modules of the runner, one of which has the name of one here.
sys.path.append(os.path.join(os.path.dirname(os.path.abspath(__file__)), *[os.pardir] * 2, "share", "site"))

from client import Client, Ended, begin  # noqa: E402

# No run of a row takes so many seconds.
PATIENCE = 120
# The moment of each session's builds: the first of 2024.
MOMENT = 1_704_067_200


class Run:
    """What came of one run."""

    def __init__(self, status, replies, error):
        self.status = status
        self.replies = replies
        self.error = error


def run(program, words, folder, given=b""):
    try:
        done = subprocess.run([program.encode(), *words], cwd=folder, input=given, capture_output=True, timeout=PATIENCE)
    except subprocess.TimeoutExpired as late:
        raise Ended(f"the program did not end within {PATIENCE} seconds") from late
    return Run(done.returncode, done.stdout, done.stderr)


def write_file(folder, name, data):
    path = os.path.join(os.fsencode(folder), name)
    os.makedirs(os.path.dirname(path), exist_ok=True)
    with open(path, "wb") as file:
        file.write(data)


def read_files(folder):
    """The files below a folder, by their paths within it; empty where there is no folder."""
    found = {}
    top = os.fsencode(folder)
    for within, _, names in os.walk(top):
        for name in names:
            path = os.path.join(within, name)
            with open(path, "rb") as file:
                found[os.path.relpath(path, top)] = file.read()
    return found


class Session:
    """A session in a folder of its own, to which files are put and of which each build is waited for."""

    def __init__(self, program, folder, files):
        os.makedirs(folder)
        self.folder = folder
        self.files = dict(files)
        self.client = Client(begin(program, folder), PATIENCE)
        try:
            self.client.done(b"time %d\n" % MOMENT)
            self.client.put_all(files)
        except Ended:
            self.client.kill()
            raise

    def close(self):
        """Lets the session end."""
        self.client.close()

    def end(self):
        """Ends the session at once."""
        self.client.kill()

    def build(self, files, output):
        """Builds with these files in place of those that are there, and gives the text of an output and the reply; afterwards all is as it was."""
        self.client.put_all(files)
        reply = self.client.ask_all(b"build\n")[0]
        text = None
        if reply.startswith("built "):
            try:
                with open(os.path.join(os.fsencode(self.folder), b"_site", output), "rb") as file:
                    text = file.read()
            except OSError:
                reply = f"no output {output.decode()}: {reply}"
        for name in files:
            self.client.delete(name)
        self.client.put_all({name: self.files[name] for name in files if name in self.files})
        return text, reply
