"""A line between a telephone and the server on which datagrams are lost, doubled and late, each way."""
from collections import Counter

# The most, in seconds, that a datagram is late; a tenth of them are late, so some overtake others.
LATEST, LATE = 0.2, 0.1


class Line:
    """What happens to datagrams. For each request and its responses it counts how many copies passed, and how many the
    server sent."""

    def __init__(self, loop, fate, loss):
        self.loop, self.fate, self.loss = loop, fate, loss
        self.passed, self.came, self.arrived, self.losses = Counter(), Counter(), Counter(), 0

    def copies(self):
        """How late each copy of a datagram that passes is."""
        copies = 0 if self.fate.random() < self.loss else 2 if self.fate.random() < self.loss else 1
        return [self.fate.random() * LATEST if self.fate.random() < LATE else 0 for _ in range(copies)]

    def suffer(self, carry):
        delays = self.copies()
        self.losses += not delays
        for delay in delays:
            if delay:
                self.loop.after(delay, carry)
            else:
                carry()
        return len(delays)

    def out(self, key, carry):
        """A datagram of this transaction goes to the server."""
        self.passed[key] += self.suffer(carry)

    def back(self, key, carry):
        """A datagram of this transaction comes from the server."""
        self.came[key] += 1
        self.arrived[key] += self.suffer(carry)

    def is_to_blame(self, key):
        """Whether the line alone is why no response to this request arrived: it lost each copy of the one, or of the
        other."""
        return not self.arrived[key] and (not self.passed[key] or self.came[key] > 0)

    def keep(self, keys):
        """Forgets everything about other transactions."""
        self.passed, self.came, self.arrived = (Counter({key: counts[key] for key in keys if key in counts}) for counts in (self.passed, self.came, self.arrived))
