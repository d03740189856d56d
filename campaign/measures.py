"""What is measured of a run: the least gap and the least time to collision.

Both are of a vehicle and the next one ahead in its lane, at a tick. The gap is the distance of their positions. The time to collision
is the time in which the gap would be gone at their speeds. There is none if the vehicle isn't faster than the one ahead.
"""


def least_gap(run):
    """The least gap in micrometres as (gap, tick, vehicle, vehicle ahead); None if no two vehicles are in a lane at a tick."""
    return min(((ahead[1] - own[1], tick, name, other) for tick, name, own, other, ahead in followers(run)), default=None)


def least_time(run):
    """The least time to collision in milliseconds, in the same form."""
    closing = ((tick, name, own, other, ahead) for tick, name, own, other, ahead in followers(run) if own[2] > ahead[2])
    return min((((ahead[1] - own[1]) / (own[2] - ahead[2]), tick, name, other) for tick, name, own, other, ahead in closing), default=None)


def followers(run):
    """Each vehicle that has another ahead in its lane at a tick: (tick, vehicle, its sample, vehicle ahead, its sample)."""
    for tick in range(run["end"] + 1):
        samples = sorted((samples[tick], name) for name, samples in run["traces"])
        for (own, name), (ahead, other) in zip(samples, samples[1:]):
            if own[0] == ahead[0]:
                yield tick, name, own, other, ahead
