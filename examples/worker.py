#!/usr/bin/env python3
"""A worker that shares jobs with others over a running server, and goes on with the job that it had after a kill -9. It uses clients/python.

    examples/worker.py PORT CLIENT          takes one ("job", i) after another from the server on this port, and puts ("done", i, i * i) for each
    examples/worker.py demo [JOBS]          starts a server in a new folder, puts the jobs (30), starts three workers, kills one of them and then the
                                            server with -9, starts both again, and counts: one result for each job, and no job left

A worker keeps nothing on disk. When it starts again under its number it asks for the last reply that the server keeps for it: a job that was taken has no result
yet, so it goes on with it; "stored" says that its last result is there. So each job has one result, if nothing else uses the number while a job is unfinished. What
another program did under it before that is passed over. The work itself may be begun twice, once before the
kill and once after it; its result is put once. It does the same after an error, whatever was under way then.

The demo starts the program that LINDA names; else `linda` on the PATH; else that of the folder around, a repository or an unpacked release.

What is proved of this: the server takes no tuple twice, keeps what it answered over a kill -9 (if files keep what was synced), and answers a repeated
number with the reply that it gave. That this program uses it rightly is shown only by the demo.
"""

import os
import shutil
import subprocess
import sys
import tempfile
import time
from pathlib import Path

TOP = Path(__file__).resolve().parent.parent
sys.path.insert(0, str(TOP / "clients/python"))
from linda_space import INT, NoConnection, Space  # noqa: E402


def program():
    """The program linda."""
    around = (str(it) for it in (TOP / "linda", TOP / "bin/linda") if it.is_file())
    found = os.environ.get("LINDA") or shutil.which("linda") or next(around, None)
    return found or sys.exit("there is no linda: set LINDA to its path, or put it on the PATH")


def log(*words):
    print(*words, flush=True)


def work(port, number):
    """Works until it is killed."""
    while True:
        try:
            with Space([port], number) as space:
                work_in(space)
        except NoConnection:
            log(f"worker {number}: the server is gone")
            time.sleep(0.1)


def work_in(space):
    """Goes on with the job that it had, if it had one and put no result, and then takes one after another. If the server is gone for some seconds the library
    greets it again."""
    last = space.last_reply()
    job = last.tuple[1] if last is not None and last.kind == "taken" and last.tuple[0] == "job" else None
    if job is not None:
        log(f"worker {space.client}: goes on with job {job}")
    while True:
        if job is None:
            job = space.take("job", INT)[1]
            log(f"worker {space.client}: took job {job}")
        time.sleep(0.02)
        space.out("done", job, job * job)
        job = None


def serve(folder, port=0):
    """A server on that folder, and its port."""
    server = subprocess.Popen([program(), "serve", "--port", str(port), "--dir", folder], stdout=subprocess.PIPE, text=True)
    line = server.stdout.readline().split()
    if line[:1] != ["ready"]:
        sys.exit("the server did not start")
    return server, int(line[1])


def start(port, number):
    return subprocess.Popen([sys.executable, __file__, str(port), str(number)])


def demo(jobs):
    with tempfile.TemporaryDirectory() as folder:
        server, port = serve(folder)
        with Space([port], 1, fresh=True) as boss:
            for job in range(jobs):
                boss.out("job", job)
            with Space([port], 12) as other:            # what this number took last is no job
                other.out("other", 41)
                other.take("other", 41)
            workers = {number: start(port, number) for number in (11, 12, 13)}
            time.sleep(0.3)
            log("worker 12 is killed, and started again")
            workers[12].kill()
            workers[12].wait()
            workers[12] = start(port, 12)
            time.sleep(0.2)
            log("the server is killed, and started again")
            server.kill()
            server.wait()
            server, port = serve(folder, port)
            found = sorted(boss.take("done", INT, INT)[1:] for _ in range(jobs))
            left = boss.look("job", INT), boss.look("done", INT, INT)
        for process in (*workers.values(), server):
            process.kill()
            process.wait()
        if found != [(job, job * job) for job in range(jobs)] or left != (None, None):
            sys.exit(f"wrong results: {found}, and left are {left}")
        log(f"{jobs} jobs, one result each")


if __name__ == "__main__":
    if sys.argv[1:2] == ["demo"] and len(sys.argv) <= 3 and all(word.isdigit() for word in sys.argv[2:]):
        demo(int(sys.argv[2]) if len(sys.argv) == 3 else 30)
    elif len(sys.argv) == 3 and all(word.isdigit() for word in sys.argv[1:]):
        work(int(sys.argv[1]), int(sys.argv[2]))
    else:
        sys.exit(__doc__)
