"""The least seconds along ways, by Dijkstra's search; without a package, so commands without tables start at once."""

import heapq


def reached_from(source: int, leaving: dict[int, list[tuple[int, int]]], limit: int) -> dict[int, int]:
    """The least seconds to each stop within the limit."""
    best, heap = {source: 0}, [(0, source)]
    while heap:
        time, stop = heapq.heappop(heap)
        for target, more in leaving.get(stop, []) if time == best[stop] else []:
            if time + more <= limit and time + more < best.get(target, limit + 1):
                best[target] = time + more
                heapq.heappush(heap, (time + more, target))
    return best
