"""An ordered log of Redis: the entries have the ids 1-0, 2-0 and so on, so that an entry's id is its place, and none can be added twice."""

import time

import redis

# how long to wait for an engine that is away, in seconds, and how often to ask
AWAY, PAUSE = 300, 0.2


class Engine:
    """The engine at this port of this machine. A call that finds it away waits until it is back."""

    def __init__(self, port, host="127.0.0.1"):
        self.redis = redis.Redis(host=host, port=port, socket_connect_timeout=5, socket_timeout=30)

    def call(self, *words):
        until = time.monotonic() + AWAY
        while True:
            try:
                return self.redis.execute_command(*words)
            except (redis.exceptions.ConnectionError, redis.exceptions.TimeoutError, redis.exceptions.BusyLoadingError):
                if time.monotonic() > until:
                    raise
                time.sleep(PAUSE)


def number_of(entry):
    return int(entry.partition(b"-")[0])


class Log:
    """One log of the engine."""

    def __init__(self, engine, name):
        self.engine, self.name = engine, name

    def entries(self, first, last, *words):
        """The entries from one number to another, each with its fields."""
        found = self.engine.call("XRANGE", self.name, first, last, *words)
        return [(number_of(entry), fields) for entry, fields in found]

    def last(self):
        """The number of the last entry and its fields; 0 and none if the log is empty."""
        found = self.engine.call("XREVRANGE", self.name, "+", "-", "COUNT", 1)
        return (number_of(found[0][0]), found[0][1]) if found else (0, {})

    def after(self, number, most):
        """So many of the entries behind this one at most, in order."""
        return self.entries(f"{number + 1}-0", "+", "COUNT", most)

    def add(self, number, **fields):
        """Adds the entry of this number; nothing if the log has come so far already. Once it is back, the entry is on the engine's disk
        (appendfsync always). If the engine went away meanwhile it is asked again, and an entry that it had taken isn't added a second time."""
        words = [word for field in fields.items() for word in field]
        try:
            self.engine.call("XADD", self.name, f"{number}-0", *words)
        except redis.exceptions.ResponseError as fault:
            if "equal or smaller" not in str(fault):
                raise
