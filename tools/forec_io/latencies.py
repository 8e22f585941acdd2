"""Statistics of latencies, in a bounded space however long a run is."""
from __future__ import annotations

FINE = 5  # bits of a value that are kept: a percentile is at most a 32nd too great


class Latencies:
    """How often each latency was seen, in nanoseconds."""

    def __init__(self) -> None:
        self.counts: dict[int, int] = {}
        self.count, self.worst = 0, 0

    def add(self, nanoseconds: int) -> None:
        nanoseconds = max(0, nanoseconds)
        shift = max(0, nanoseconds.bit_length() - FINE - 1)
        most = (nanoseconds >> shift) + 1 << shift
        self.counts[most] = self.counts.get(most, 0) + 1
        self.count += 1
        self.worst = max(self.worst, nanoseconds)

    def percentile(self, per_thousand: int) -> int:
        """What so many of a thousand don't exceed."""
        wanted, seen = -(-self.count * per_thousand // 1000), 0
        for most in sorted(self.counts):
            seen += self.counts[most]
            if seen >= wanted:
                return min(most, self.worst)
        return 0

    def row(self, name: str) -> str:
        """A line with the percentiles, in microseconds."""
        values = [self.percentile(500), self.percentile(990), self.percentile(999), self.worst]
        return f"{name:<28}" + "".join(f"{value // 1000:>10}" for value in values)


HEAD = f"{'microseconds':<28}" + "".join(f"{name:>10}" for name in ("p50", "p99", "p99.9", "worst"))
