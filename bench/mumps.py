"""FIS GT.M, an M system with its database on disk (Debian's package fis-gtm)."""
import glob
import os
import shutil
import subprocess

from programs import ROOT, timed

PLACES = "/usr/lib/x86_64-linux-gnu/fis-gtm/V*"
SHAPE = """change -segment DEFAULT -file="{folder}/globals.dat"
change -segment DEFAULT -block_size=4096
change -segment DEFAULT -allocation={blocks}
change -segment DEFAULT -global_buffer_count={buffers}
change -region DEFAULT -key_size=1019
change -region DEFAULT -record_size=32767
change -region DEFAULT -stdnullcoll
exit
"""
# Where there is room on tmpfs.
ROOM = "/dev/shm" if os.path.isdir("/dev/shm") else None


def place_of_gtm():
    """Where GT.M is, or none. Set gtm_dist where it isn't at Debian's place."""
    places = sorted(glob.glob(PLACES))
    return os.environ.get("gtm_dist") or (places[-1] if places else None)


class Gtm:
    """GT.M over an empty database in a folder, of so many blocks of 4 KB and so many buffers for them."""

    def __init__(self, folder, place, blocks=50000, buffers=20000):
        self.folder, self.mumps, self.mupip = folder, os.path.join(place, "mumps"), os.path.join(place, "mupip")
        routines = os.path.join(ROOT, "bench", "routines")
        self.environment = dict(
            os.environ,
            gtm_dist=place,
            gtmgbldir=os.path.join(folder, "globals.gld"),
            gtmroutines=f"{folder}({routines}) {place}/libgtmutil.so",
            gtm_chset="M",
        )
        self.call([self.mumps, "-run", "GDE"], SHAPE.format(folder=folder, blocks=blocks, buffers=buffers))
        self.call([self.mupip, "create"], "")
        self.data, self.empty = os.path.join(folder, "globals.dat"), os.path.join(folder, "empty.dat")
        shutil.copy(self.data, self.empty)

    def call(self, command, text):
        quiet = {"stdout": subprocess.DEVNULL, "stderr": subprocess.DEVNULL}
        subprocess.run(command, input=text.encode(), env=self.environment, check=True, **quiet)

    def clear(self):
        shutil.copy(self.empty, self.data)

    def loop(self, label, size):
        self.clear()
        output = os.path.join(self.folder, "looped")
        return timed([self.mumps, "-run", "speed", f"{label} {size}"], output, **self.place())

    def lines(self, path, output):
        self.clear()
        shell = f'exec "{self.mumps}" -run lines < "{path}"'
        return timed(["/bin/sh", "-c", shell], output, **self.place())

    def place(self):
        """Where its commands run."""
        return {"env": self.environment, "cwd": self.folder}

    def job_command(self, label, jobs, count):
        """Does jobs as loops of M (bench/routines/jobs.m)."""
        return [self.mumps, "-run", "jobs", f"{label} {jobs[0]} {jobs[-1]} {count}"]

    def open_job(self):
        pipe = subprocess.PIPE
        return subprocess.Popen([self.mumps, "-run", "lines", "list"], stdin=pipe, stdout=pipe, **self.place())
