"""What bench/run measures: the host, and what a user would pick instead."""
import json
import os
import socket
import sqlite3
import subprocess
import time

TOP = os.path.dirname(os.path.dirname(os.path.realpath(__file__)))
BENCH = os.path.join(TOP, "bench")
HOST = os.environ.get("DURABLE") or os.path.join(TOP, "out", "durable")
BEFORE = os.environ.get("BEFORE")
SCRIPT = os.path.join(BENCH, "script.js")


class Caller:
    """A process that is called by lines and answers by lines."""

    def __init__(self, words, **more):
        self.ran = subprocess.Popen(words, stdin=subprocess.PIPE, stdout=subprocess.PIPE, bufsize=0, **more)
        self.number = 0
        self.rest = b""

    def send(self, names, first, count, tail):
        """So many calls at once, of these objects in turn."""
        lines = []
        for at in range(first, first + count):
            self.number += 1
            lines.append(b'["call",%d,"Bench","%s",%s]\n' % (self.number, names[at % len(names)].encode(), tail))
        left = memoryview(b"".join(lines))
        while left:
            left = left[self.ran.stdin.write(left):]

    def answers(self):
        """Waits for answers, and tells how many came."""
        got = self.ran.stdout.read(1 << 16)
        lines = (self.rest + got).split(b"\n")
        self.rest = lines.pop()
        for line in lines:
            if not line.startswith(b'["reply",'):
                raise SystemExit(f"bench: what is measured said {line!r}")
        if not got:
            raise SystemExit("bench: what is measured has ended")
        return len(lines)

    def in_turn(self, names, window, count, method, args):
        """So many calls of these objects in turn, of which at most as many as the window has are under way."""
        tail = json.dumps([method, args], separators=(",", ":"))[1:-1].encode()
        sent = answered = 0
        while answered < count:
            more = min(count - sent, window - (sent - answered))
            self.send(names, sent, more, tail)
            sent += more
            answered += self.answers()

    def call(self, name, method, args):
        self.in_turn([name], 1, 1, method, args)

    def close(self):
        self.ran.stdin.close()
        rest = self.rest + self.ran.stdout.read()
        status = self.ran.wait()
        if status or rest:
            raise SystemExit(f"bench: what is measured ended with {status}, and said {rest!r}")


class Host(Caller):
    """The program, serving a folder."""

    def __init__(self, folder, slots, workers, program=HOST):
        os.makedirs(folder, exist_ok=True)
        super().__init__([program, "serve", SCRIPT, folder, "--slots", str(slots), "--workers", str(workers)])
        self.time = 0

    def ticks(self, count, names):
        """So many ticks, and then a call of each of these objects, which it answers behind them."""
        for first in range(self.time + 1, self.time + count + 1, 1000):
            left = memoryview(b"".join(b'["tick",%d]\n' % time for time in range(first, min(first + 1000, self.time + count + 1))))
            while left:
                left = left[self.ran.stdin.write(left):]
        self.time += count
        self.in_turn(names, len(names), len(names), "take", [0])

    def peak(self):
        """The most memory that it had so far, in bytes."""
        with open(f"/proc/{self.ran.pid}/status") as it:
            for line in it:
                if line.startswith("VmHWM"):
                    return int(line.split()[1]) * 1024

    def processor(self):
        """The processor's seconds that its threads have taken so far."""
        spent = 0
        for thread in os.listdir(f"/proc/{self.ran.pid}/task"):
            with open(f"/proc/{self.ran.pid}/task/{thread}/schedstat") as it:
                spent += int(it.read().split()[0])
        return spent / 1e9


def named(count):
    return [f"o{i}" for i in range(count)]


# ---- what a user would pick instead

class Lite:
    """A table of counters in SQLite; each add or put is one transaction, synced before its answer."""

    def __init__(self, folder, what, objects):
        self.base = sqlite3.connect(os.path.join(folder, f"{what}-{objects}.sqlite"), isolation_level=None)
        self.base.execute("pragma journal_mode = wal")
        self.base.execute("pragma synchronous = full")
        self.base.execute("create table counters (name text primary key, value integer)")
        self.base.executemany("insert into counters values (?, 0)", [(name,) for name in named(objects)])
        self.objects = objects
        self.value = 0

    def add(self, count):
        for i in range(count):
            name = f"o{i % self.objects}"
            self.base.execute("begin immediate")
            value = self.base.execute("select value from counters where name = ?", (name,)).fetchone()[0]
            self.base.execute("update counters set value = ? where name = ?", (value + 1, name))
            self.base.execute("commit")

    def put(self, count):
        for i in range(count):
            # Another value each time: SQLite writes nothing where a row stays as it was.
            self.value += 1
            self.base.execute("update counters set value = ? where name = ?", (self.value, f"o{i % self.objects}"))

    def close(self):
        self.base.close()


class Redis:
    """redis-server with each write synced before its answer."""

    def __init__(self, folder):
        self.path = os.path.join(folder, "redis.sock")
        self.ran = subprocess.Popen(
            ["redis-server", "--port", "0", "--unixsocket", self.path, "--dir", folder, "--appendonly", "yes", "--appendfsync", "always", "--save", ""],
            stdout=subprocess.DEVNULL, stderr=subprocess.DEVNULL)
        for _ in range(200):
            if os.path.exists(self.path):
                return
            time.sleep(0.05)
        raise SystemExit("bench: redis-server didn't start")

    def client(self):
        end = socket.socket(socket.AF_UNIX)
        end.connect(self.path)
        return end

    def close(self):
        self.ran.terminate()
        self.ran.wait()


class Clients:
    """Clients of Redis that increment or set, each with so many under way."""

    def __init__(self, redis, clients, pipeline, objects):
        self.ends = [redis.client() for _ in range(clients)]
        self.pipeline = pipeline
        self.objects = objects

    def add(self, count):
        self.send(count, lambda at, key: b"*2\r\n$4\r\nINCR\r\n$%d\r\n%s\r\n" % (len(key), key))

    def put(self, count):
        self.send(count, lambda at, key: b"*3\r\n$3\r\nSET\r\n$%d\r\n%s\r\n$7\r\n%07d\r\n" % (len(key), key, at % 10 ** 7))

    def send(self, count, command):
        at = 0
        while at < count:
            for end in self.ends:
                words = b""
                for _ in range(self.pipeline):
                    words += command(at, b"o%d" % (at % self.objects))
                    at += 1
                end.sendall(words)
            for end in self.ends:
                left = self.pipeline
                while left:
                    left -= end.recv(1 << 16).count(b"\n")

    def close(self):
        for end in self.ends:
            end.close()


def built(folder, name):
    """The program that a source of bench/ is."""
    program = os.path.join(folder, name)
    subprocess.run(["cc", "-O2", "-o", program, os.path.join(BENCH, f"{name}.c")], check=True)
    return program


class Server(Caller):
    """A server in C that reads the same lines over a pipe, makes the same calls of the disk, and does nothing else."""

    def __init__(self, program, file):
        super().__init__([program, file], stderr=subprocess.PIPE)

    def close(self):
        """The seconds that its calls of the disk took."""
        super().close()
        return float(self.ran.stderr.read())


class Raw:
    """A loop that makes the journal's calls of the device."""

    def __init__(self, folder, bytes_each):
        self.program = built(folder, "raw")
        self.file = os.path.join(folder, "raw-journal")
        self.bytes_each = bytes_each

    def append(self, count):
        """The seconds that so many take, without the start of the loop's process."""
        return float(self.append_to(1, count)[0])

    def append_to(self, files, count):
        """So many to each of so many files, all at once: what each loop prints."""
        loops = [subprocess.Popen([self.program, f"{self.file}-{at}", str(self.bytes_each), str(count)], stdout=subprocess.PIPE) for at in range(files)]
        told = [it.communicate()[0] for it in loops]
        if any(it.returncode for it in loops):
            raise SystemExit("bench: the raw loop failed")
        return told


class Served:
    """A server of Node that prints its port, and is told to end."""

    def __init__(self, *words):
        self.ran = subprocess.Popen(["node", *words], stdout=subprocess.PIPE, env={**os.environ, "DURABLE": HOST})
        told = self.ran.stdout.readline().decode()
        if not told:
            raise SystemExit(f"bench: {words[0]} didn't start")
        self.port = int(told.rsplit(":", 1)[-1])

    def close(self):
        self.ran.terminate()
        self.ran.wait()


class HttpClients:
    """Clients that keep their connections, of bench/clients.mjs."""

    def __init__(self):
        self.ran = subprocess.Popen(["node", os.path.join(BENCH, "clients.mjs")], stdin=subprocess.PIPE, stdout=subprocess.PIPE)

    def ask(self, port, clients, count, path):
        self.ran.stdin.write(f'{port} {clients} {count} {path} ["n"]\n'.encode())
        self.ran.stdin.flush()
        if self.ran.stdout.readline() != b"done\n":
            raise SystemExit("bench: the clients of HTTP ended")

    def close(self):
        self.ran.stdin.close()
        self.ran.wait()
