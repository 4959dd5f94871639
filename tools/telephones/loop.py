"""One thread for many telephones: what is due, and what came to their sockets."""
import heapq
import itertools
import selectors
import socket
import time


class Port:
    """A UDP socket: each datagram that comes to it is taken."""

    def __init__(self, loop, ip, take):
        self.socket = socket.socket(socket.AF_INET, socket.SOCK_DGRAM)
        self.socket.bind((ip, 0))
        self.socket.setblocking(False)
        self.number = self.socket.getsockname()[1]
        loop.sockets.register(self.socket, selectors.EVENT_READ, take)

    def send(self, data, where):
        self.socket.sendto(data, where)


class Loop:
    def __init__(self):
        self.due, self.order, self.sockets = [], itertools.count(), selectors.DefaultSelector()

    @staticmethod
    def now():
        """Seconds."""
        return time.monotonic()

    def after(self, seconds, call):
        """Makes this call in this many seconds; calling what is returned before then cancels it."""
        timer = [self.now() + seconds, next(self.order), call]
        heapq.heappush(self.due, timer)

        def take_back():
            timer[2] = None

        return take_back

    def open(self, ip, take):
        """A port of this address, and what takes the datagrams that come to it."""
        return Port(self, ip, take)

    def run(self, until):
        """Runs until that holds."""
        while not until():
            wait = max(0, self.due[0][0] - self.now()) if self.due else 0.1
            for key, _ in self.sockets.select(min(wait, 0.1)):
                self.receive(key.fileobj, key.data)
            while self.due and self.due[0][0] <= self.now():
                call = heapq.heappop(self.due)[2]
                if call:
                    call()

    def receive(self, port, take):
        while True:
            try:
                data = port.recv(65_536)
            except (BlockingIOError, ConnectionRefusedError):
                return
            take(data)

    def close(self):
        for key in [*self.sockets.get_map().values()]:
            key.fileobj.close()
        self.sockets.close()
