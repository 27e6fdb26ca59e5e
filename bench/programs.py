"""The programs that the scripts of this folder run, and how one run is measured."""
import os
import subprocess

ROOT = os.path.dirname(os.path.dirname(os.path.abspath(__file__)))
MRUN = os.path.join(ROOT, "crates", "mrun", "out", "mrun")
TIMINGS = os.path.join(ROOT, "bench", "timings")
STORES = os.path.join(ROOT, "bench", "stores")
COPY = os.path.join(os.environ.get("XDG_CACHE_HOME") or os.path.expanduser("~/.cache"), "vorgushan-timings")


def built():
    """Builds mrun where it isn't built yet, or a source is newer."""
    subprocess.run([os.path.join(ROOT, "mrun"), "--version"], check=True, stdout=subprocess.DEVNULL)


def compile_one(folder, source, name=None):
    """A plain program of this source; those that share parts leave some of them unused."""
    program = os.path.join(folder, name or source)
    path = os.path.join(ROOT, "bench", "plain", source + ".rs")
    subprocess.run(["rustc", "--edition", "2021", "-O", "-A", "dead_code", "-o", program, path], check=True)
    return program


def compile_plain(folder):
    """The two plain programs: over a map alone, and with versions, transactions and locks."""
    return [compile_one(folder, "main", "plain"), compile_one(folder, "whole")]


def check_bytes(name, programs, path, folder):
    """All programs write the same, with the listing."""
    outputs = []
    for label, program in programs:
        output = os.path.join(folder, label)
        with open(output, "wb") as out:
            subprocess.run([program, path], stdout=out, check=True)
        outputs.append(output)
    for output in outputs[1:]:
        if subprocess.run(["cmp", "-s", outputs[0], output]).returncode != 0:
            raise SystemExit(f"the outputs differ: {name}")
    return outputs[0]


def timed(command, output, **options):
    """Processor seconds of one run, and its peak of memory in MB, which GNU time asks of its own small child."""
    memory = output + ".memory" if output != os.devnull else None
    measure = ["/usr/bin/time", "-f", "%M", "-o", memory] if memory else []
    with open(output, "wb") as out:
        process = subprocess.Popen(measure + command, stdout=out, stdin=subprocess.DEVNULL, **options)
        _, status, usage = os.wait4(process.pid, 0)
        process.returncode = os.waitstatus_to_exitcode(status)
    if process.returncode != 0:
        raise SystemExit(f"{' '.join(command)} ended with status {process.returncode}")
    if not memory:
        return usage.ru_utime + usage.ru_stime, 0
    with open(memory) as file:
        return usage.ru_utime + usage.ru_stime, int(file.read()) / 1024


def instructions(command, folder):
    """How many instructions a run takes, in millions, counted by callgrind: the program's own, without the kernel's."""
    tool = ["valgrind", "--tool=callgrind", "--callgrind-out-file=" + os.devnull]
    run = subprocess.run(tool + command, stdout=subprocess.DEVNULL, stderr=subprocess.PIPE, check=True, cwd=folder)
    told = [line for line in run.stderr.decode().splitlines() if "Collected" in line]
    return int(told[0].split()[-1]) / 1e6


def lines_of(path):
    with open(path, "rb") as file:
        return sum(1 for _ in file)


def restarts_of(path):
    """How many replies are a restart."""
    with open(path, "rb") as file:
        return sum(1 for line in file if line.split()[1:2] == [b"restart"])


def read(*path):
    with open(os.path.join(*path), "rb") as file:
        return file.read()


def texts_of(folder, end=""):
    """The files of a crate, by their paths in it, without this end of their names."""
    found = {}
    for part in ("src", "specs", "proofs"):
        for at, _, names in os.walk(os.path.join(folder, part)):
            for name in names:
                path = os.path.relpath(os.path.join(at, name), folder)
                found[path.removesuffix(end)] = read(at, name)
    return found


def put(folder, texts):
    """Leaves just these files in a crate's folder of the copy; one that is the same stays, with what was built of it."""
    for path in texts_of(folder).keys() - texts.keys():
        os.remove(os.path.join(folder, path))
    for path, text in texts.items():
        to = os.path.join(folder, path)
        if os.path.exists(to) and read(to) == text:
            continue
        os.makedirs(os.path.dirname(to), exist_ok=True)
        with open(to, "wb") as file:
            file.write(text)


def timings_crate(name):
    """The folder of a program of bench/timings in a copy of the crates, which follows what they are now."""
    texts = {each: texts_of(os.path.join(ROOT, "crates", each)) for each in os.listdir(os.path.join(ROOT, "crates"))}
    texts[f"{name}_timings"] = texts_of(os.path.join(TIMINGS, name), ".txt")
    for each, files in texts.items():
        put(os.path.join(COPY, "crates", each), files)
    lines = read(ROOT, "crates.txt") + read(TIMINGS, name, "crate.txt")
    put(COPY, {"HANDLES": read(ROOT, "HANDLES"), "crates.txt": lines})
    return os.path.join(COPY, "crates", f"{name}_timings")


def built_timings(name):
    """The path of a program of bench/timings, which is built, and so proved, where it isn't yet."""
    folder = timings_crate(name)
    subprocess.run(["rt", "run", "--", "1"], cwd=folder, check=True, stdout=subprocess.DEVNULL)
    return os.path.join(folder, "out", f"{name}_timings")


def built_library():
    """The library for C, proved and built."""
    crate = os.path.join(ROOT, "crates", "vorgushan_c")
    subprocess.run(["rt", "lib"], cwd=crate, check=True, stdout=subprocess.DEVNULL)
    return os.path.join(crate, "out", "libvorgushan_c.a")


def with_memory(library):
    """The library, and the kit's C code for memory that it calls."""
    page = subprocess.run(["rt", "doc"], capture_output=True, text=True, check=True).stdout.strip()
    return [library, os.path.join(os.path.dirname(os.path.realpath(page)), "c", "liblibc_c.a")]


def compile_store(program, sources, words):
    """A program in C of these sources of bench/stores; the words are flags and libraries."""
    paths = [os.path.join(STORES, source + ".c") for source in sources]
    flags = ["-std=gnu11", "-Wall", "-Wextra", "-Werror", "-O2", "-I" + os.path.join(ROOT, "include")]
    subprocess.run(["cc", *flags, *paths, *words, "-o", program], check=True)
    return program
