"""killed.py FOLDER KILLS [SEED]: the lock and its key over a network that loses 30 of 100 datagrams, both ways. FOLDER has both programs, and
gets their records. So often one of the two is killed anywhere in an exchange, and goes on behind its record. Over all lives the lock obeys
each request at most once, and just once where its key heard so; and no number of the key has two texts. When a life is killed goes by how
long those took that weren't, so that a slow machine changes nothing."""
import pathlib
import random
import re
import select
import socket
import statistics
import subprocess
import sys
import time

LOSS = 0.3
SAVED = re.compile(r"saved sender \d+, received (\d+)")


def fail(why: str) -> None:
    sys.exit(f"killed: {why}")


class Lock:
    """A lock, which is begun anew where it was killed, and what it obeyed in all its lives."""

    def __init__(self, folder: pathlib.Path) -> None:
        self.folder, self.lives, self.obeyed = folder, 0, []
        self.begin()

    def begin(self) -> None:
        words = ["./lock", "0", "1000000", "lock.record"] + ["first"] * (self.lives == 0)
        self.process = subprocess.Popen(words, cwd=self.folder, stdout=subprocess.PIPE, text=True)
        said = self.process.stdout.readline().split()
        if said[:1] != ["port"]:
            fail(f"life {self.lives} of the lock said {said}")
        self.address = ("127.0.0.1", int(said[1]))
        self.lives += 1

    def kill(self) -> None:
        """Each request has a save of its own before it is obeyed, with a received number that is one above the request's."""
        self.process.kill()
        number = None
        for line in self.process.communicate()[0].splitlines():
            if saved := SAVED.fullmatch(line):
                number = int(saved[1]) - 1
            elif line.endswith(": open"):
                if number is None or number < 0:
                    fail(f"life {self.lives} of the lock obeyed what it hadn't saved")
                self.obeyed.append(number)
                number = None


class Network:
    """Hands datagrams on between the key that spoke last and the lock."""

    def __init__(self) -> None:
        self.front, self.back = (socket.socket(socket.AF_INET, socket.SOCK_DGRAM) for _ in range(2))
        for end in self.front, self.back:
            end.bind(("127.0.0.1", 0))
        self.port, self.key, self.lost, self.passed = self.front.getsockname()[1], None, 0, 0

    def pass_on(self, lock: Lock, seconds: float) -> None:
        for end in select.select([self.front, self.back], [], [], max(0, seconds))[0]:
            datagram, sender = end.recvfrom(2000)
            if end is self.front:
                self.key = sender
            if random.random() < LOSS:
                self.lost += 1
            elif end is self.front or self.key:
                self.passed += 1
                (self.back.sendto(datagram, lock.address) if end is self.front else self.front.sendto(datagram, self.key))


class Keys:
    """The key's lives: what it sent under each number, and the numbers of requests of which it heard that they were obeyed."""

    def __init__(self, folder: pathlib.Path) -> None:
        self.folder, self.lives, self.kills, self.texts, self.heard, self.usual = folder, 0, 0, {}, [], [0.02]

    def live(self, network: Network, lock: Lock, is_killed: bool) -> None:
        """One life. In one that is killed it is the lock, or the key itself, unless the key ended sooner."""
        words = ["./key", str(network.port), "key.record", "open", "sent"] + ["first"] * (self.lives == 0)
        key = subprocess.Popen(words, cwd=self.folder, stdout=subprocess.PIPE, text=True)
        began, kills_lock, left = time.monotonic(), random.random() < 0.5, is_killed
        after = random.uniform(0, 1.2 * statistics.median(self.usual[-15:]))
        while key.poll() is None:
            if left and time.monotonic() - began >= after:
                left, self.kills = False, self.kills + 1
                if kills_lock:
                    lock.kill()
                    lock.begin()
                else:
                    key.kill()
            network.pass_on(lock, 0.002)
        if not is_killed:
            self.usual.append(time.monotonic() - began)
        self.lives += 1
        self.note(key.communicate()[0].splitlines())

    def note(self, said: list[str]) -> None:
        for file in self.folder.glob("sent.*"):
            number = int(file.suffix[1:])
            if number in self.texts:
                fail(f"the key used number {number} twice")
            self.texts[number] = file.read_bytes()
            file.unlink()
        if said[-1:] == ["2.04 open"]:
            self.heard.append([int(line.split()[1]) for line in said if line.startswith("number ")][-1])


def main() -> None:
    folder, kills = pathlib.Path(sys.argv[1]), int(sys.argv[2])
    seed = sys.argv[3] if len(sys.argv) > 3 else str(random.randrange(2**32))
    random.seed(seed)
    network, lock, keys = Network(), Lock(folder), Keys(folder)
    while keys.kills < kills and keys.lives < 5 * kills:
        keys.live(network, lock, keys.lives % 3 > 0)
    lock.kill()
    heard, obeyed, sent = set(keys.heard), set(lock.obeyed), set(keys.texts)
    told = f"seed {seed}: {keys.kills} kills in {keys.lives} lives of the key and {lock.lives} of the lock, {network.lost} datagrams of " \
        f"{network.lost + network.passed} lost; {len(sent)} requests, {len(lock.obeyed)} obeyed, {len(heard)} heard so"
    if len(obeyed) != len(lock.obeyed) or len(heard) != len(keys.heard) or not heard <= obeyed <= sent:
        twice = sorted(number for number in obeyed if lock.obeyed.count(number) > 1)
        fail(f"{told}; obeyed twice {twice}, heard and not obeyed {sorted(heard - obeyed)}, obeyed and not sent {sorted(obeyed - sent)}")
    if keys.kills < kills or lock.lives < kills / 4 or len(heard) < kills / 3 or heard == obeyed or obeyed == sent:
        fail(f"{told}: too little came of it")
    print(told)


if __name__ == "__main__":
    main()
