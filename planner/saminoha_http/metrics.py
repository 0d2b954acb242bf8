"""What `/metrics` tells, in a registry of its own."""

from __future__ import annotations

import math
import time
from collections import deque
from collections.abc import Iterator, Sequence

from prometheus_client import CollectorRegistry, Counter, Histogram, generate_latest
from prometheus_client.core import CounterMetricFamily, GaugeMetricFamily, Metric
from prometheus_client.registry import Collector

from .pool import Pool

SECONDS = (0.005, 0.01, 0.025, 0.05, 0.1, 0.25, 0.5, 1.0, 2.5, 5.0, 10.0, 30.0)
QUANTILES = (0.5, 0.9, 0.99)
WINDOW, MOST_RECENT = 60.0, 5000  # seconds and requests of an address, of which quantiles are told


class Metrics:
    def __init__(self, pool: Pool) -> None:
        self._registry = CollectorRegistry()
        self.recent = Recent()
        self._registry.register(_OfPool(pool))
        self._registry.register(self.recent)
        self.requests = Counter(
            "saminoha_http_requests",
            "Requests by address, method and status.",
            ("route", "method", "status"),
            registry=self._registry,
        )
        self.seconds = Histogram(
            "saminoha_http_request_seconds",
            "How long requests took.",
            ("route",),
            buckets=SECONDS,
            registry=self._registry,
        )
        self.problems = Counter(
            "saminoha_http_problems",
            "Problems told, by kind; budget counts searches that passed it.",
            ("kind",),
            registry=self._registry,
        )

    def count(self, route: str, method: str, status: int, seconds: float) -> None:
        self.requests.labels(route, method, str(status)).inc()
        self.seconds.labels(route).observe(seconds)
        self.recent.add(route, seconds)

    def text(self) -> bytes:
        return generate_latest(self._registry)


class Recent(Collector):
    """Quantiles of the last minute's requests, which a histogram has by its buckets alone."""

    def __init__(self) -> None:
        self._of: dict[str, deque[tuple[float, float]]] = {}
        self._sums: dict[str, float] = {}
        self._counts: dict[str, int] = {}

    def add(self, route: str, seconds: float) -> None:
        if route not in self._of:
            self._of[route] = deque(maxlen=MOST_RECENT)
            self._sums[route], self._counts[route] = 0.0, 0
        self._of[route].append((time.monotonic(), seconds))
        self._sums[route] += seconds
        self._counts[route] += 1

    def describe(self) -> list[Metric]:
        return []

    def collect(self) -> Iterator[Metric]:
        name = "saminoha_http_recent_request_seconds"
        told = Metric(name, f"Quantiles over the last {WINDOW:g} seconds.", "summary")
        for route, entries in self._of.items():
            since = time.monotonic() - WINDOW
            recent = sorted(seconds for at, seconds in entries if at >= since)
            for share in QUANTILES:
                labels = {"route": route, "quantile": f"{share:g}"}
                told.add_sample(name, labels, quantile(recent, share))
            told.add_sample(f"{name}_sum", {"route": route}, self._sums[route])
            told.add_sample(f"{name}_count", {"route": route}, self._counts[route])
        yield told


def quantile(ascending: Sequence[float], share: float) -> float:
    """The least that so much of them isn't above, or not a number where there are none."""
    if not ascending:
        return math.nan
    return ascending[max(0, math.ceil(share * len(ascending)) - 1)]


class _OfPool(Collector):
    """The pool as it is when it is asked."""

    def __init__(self, pool: Pool) -> None:
        self._pool = pool

    def describe(self) -> list[Metric]:
        return []

    def collect(self) -> Iterator[Metric]:
        pool = self._pool
        yield GaugeMetricFamily(
            "saminoha_http_queue_requests", "Requests that wait for a link.", pool.queue
        )
        yield CounterMetricFamily(
            "saminoha_http_retried", "Requests asked once more, as a link broke.", pool.retried
        )
        gauges = {
            "server_up": ("Whether the server is asked: it answers, and isn't stale.", self._up),
            "links_in_use": ("Links in use.", self._busy),
            "links_idle": ("Links that idle.", self._idle),
            "epoch": ("The epoch that the server told last.", self._epoch),
        }
        for name, (text, values) in gauges.items():
            gauge = GaugeMetricFamily(f"saminoha_http_{name}", text, labels=("server",))
            for server, value in values().items():
                gauge.add_metric((server,), value)
            yield gauge

    def _up(self) -> dict[str, float]:
        return {one.name: float(self._pool.is_usable(one)) for one in self._pool.servers}

    def _busy(self) -> dict[str, float]:
        return {one.name: float(one.busy) for one in self._pool.servers}

    def _idle(self) -> dict[str, float]:
        return {one.name: float(len(one.idle)) for one in self._pool.servers}

    def _epoch(self) -> dict[str, float]:
        known = [one for one in self._pool.servers if one.epoch is not None]
        return {one.name: float(one.epoch or 0) for one in known}
