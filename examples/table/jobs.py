"""Four jobs on one machine: in which order is the weighted tardiness least?

A decision is the next job. The state is the set of jobs that are done, with the time.

    python3 tools/table.py examples/table/jobs.py > jobs.json
"""

LENGTH = [4, 2, 6, 3]
DUE = [8, 5, 12, 10]
WEIGHT = [3, 5, 2, 4]

layers = len(LENGTH)


def initial():
    return frozenset(), 0


def decisions(layer, state):
    done, _ = state
    return [job for job in range(layers) if job not in done]


def step(layer, state, job):
    done, time = state
    return done | {job}, time + LENGTH[job]


def gain(layer, state, job):
    _, time = state
    return -WEIGHT[job] * max(0, time + LENGTH[job] - DUE[job])
