#!/usr/bin/env python3
"""Writes the example plan files of this folder from the tables below.

A plan is six lists: ceilings; comparisons (kind, first, second, constant);
stages (mark, hold, changes); changes (guard, outcomes); outcomes
(weight, stage, timers reset); goal. Lists name a first row and a number of rows.
"""
import os
import struct

GE, GT, LE, LT = 0, 1, 2, 3
LEAD = 4
NONE, GOAL, AVOID, BOTH = 0, 1, 2, 3


def bits(timers):
    return sum(1 << i for i in timers)


def section(rows):
    return struct.pack('>H', len(rows)) + b''.join(rows)


def plan(ceilings, comparisons, stages, changes, outcomes, goal):
    return b''.join([
        section([struct.pack('>H', c) for c in ceilings]),
        section([struct.pack('>BBBBH', kind, first, second, 0, m) for kind, first, second, m in comparisons]),
        section([struct.pack('>5H', mark, *hold, *own) for mark, hold, own in stages]),
        section([struct.pack('>4H', *guard, *own) for guard, own in changes]),
        section([struct.pack('>3H', weight, stage, bits(resets)) for weight, stage, resets in outcomes]),
        section([struct.pack('>2H', *goal)]),
    ])


# Two timers; the second stage is the goal while x1 is at most 4 seconds.
EXAMPLE = plan(
    ceilings=[10, 10],
    comparisons=[(LE, 0, 0, 3), (GE, 0, 0, 2), (LE, 0, 0, 5), (GT, 0, 0, 1), (LE, 1, 0, 4)],
    stages=[(NONE, (0, 1), (0, 1)), (GOAL, (2, 1), (1, 1))],
    changes=[((1, 1), (0, 2)), ((3, 1), (2, 1))],
    outcomes=[(3, 0, [0]), (1, 1, [0]), (1, 0, [0])],
    goal=(4, 1),
)

# A pedestrian crossing with a bus priority request. x0: in this stage; x1: since the push button
# was pressed; x2: since the bus asked. The call comes in time if the walk signal shows within 30 s.
# No ceiling ever stops time: traffic that goes on sets all timers to zero, and so does a bus that
# meets no call; a bus gives way to a call that is 60 s old.
CROSSING = plan(
    ceilings=[90, 90, 120],
    comparisons=[
        (LE, 0, 0, 60),        # 0  traffic runs for at most a minute before something happens
        (GE, 0, 0, 7),         # 1  but for at least 7 s
        (LE, 1, 0, 35),        # 2  a call is answered within 35 s
        (GE, 1, 0, 5),         # 3  and not before 5 s
        (LE, 0, 0, 3),         # 4  amber shows for 3 s
        (GE, 0, 0, 3),         # 5
        (LE, 0, 0, 8),         # 6  walk shows for 6 to 8 s
        (GE, 0, 0, 6),         # 7
        (LE, 0, 0, 4),         # 8  clearing takes 4 s
        (GE, 0, 0, 4),         # 9
        (LE, 1, 0, 60),        # 10 a bus gives way to a call that is 60 s old
        (LE, 2, 0, 15),        # 11 a bus has its green for 5 to 15 s
        (GE, 2, 0, 5),         # 12
        (LEAD + GE, 1, 2, 20), # 13 the call came at least 20 s before the bus
        (LE, 1, 0, 30),        # 14 the call comes in time
    ],
    stages=[
        (NONE, (0, 1), (0, 1)),   # 0 traffic
        (NONE, (2, 1), (1, 1)),   # 1 traffic, a call waits
        (NONE, (4, 1), (2, 1)),   # 2 amber
        (BOTH, (6, 1), (3, 1)),   # 3 walk: in time, or too late
        (NONE, (8, 1), (4, 1)),   # 4 clearing
        (NONE, (10, 2), (5, 2)),  # 5 bus green, a call waits
        (NONE, (11, 1), (7, 1)),  # 6 bus green
    ],
    changes=[
        ((1, 1), (0, 3)),   # 0 a call or a bus comes, or traffic goes on
        ((3, 1), (3, 2)),   # 1 the call is served, or a bus comes first
        ((5, 1), (5, 1)),   # 2
        ((7, 1), (6, 1)),   # 3
        ((9, 1), (7, 1)),   # 4
        ((12, 1), (8, 1)),  # 5 the bus is through
        ((13, 1), (9, 1)),  # 6 the call is older: amber at once
        ((12, 1), (10, 2)), # 7 the bus is through, and perhaps a call has come
    ],
    outcomes=[
        (5, 1, [0, 1]),     # 0  of ten such times traffic meets a call in five,
        (3, 6, [0, 1, 2]),  # 1  a bus in three,
        (2, 0, [0, 1, 2]),  # 2  and nobody in two
        (7, 2, [0]),        # 3  of ten calls that wait, seven are served next
        (3, 5, [0, 2]),     # 4  and three see a bus go first
        (1, 3, [0]),        # 5
        (1, 4, [0]),        # 6
        (1, 0, [0, 1, 2]),  # 7
        (1, 1, [0]),        # 8
        (1, 2, [0]),        # 9
        (2, 0, [0]),        # 10 during two of three buses nobody calls
        (1, 1, [0, 1]),     # 11 and during the third somebody does
    ],
    goal=(14, 1),
)


# The station junction, told by its lists. A list of comparisons is written where it is used.
def at_least(timer, seconds):
    return (GE, timer, 0, seconds)


def at_most(timer, seconds):
    return (LE, timer, 0, seconds)


def lead_at_least(first, second, seconds):
    return (LEAD + GE, first, second, seconds)


def lead_at_most(first, second, seconds):
    return (LEAD + LE, first, second, seconds)


# The plan of stages that are named, each with its mark, its hold and its changes.
def plan_of_stages(ceilings, stages, goal):
    comparisons, stage_rows, changes, outcomes = [], [], [], []
    places = {name: place for place, name in enumerate(stages)}

    def appended(rows, more):
        rows.extend(more)
        return (len(rows) - len(more), len(more))

    for mark, hold, own in stages.values():
        held = appended(comparisons, hold)
        rows = []
        for guard, results in own:
            guarded = appended(comparisons, guard)
            results = [(weight, places[name], resets) for weight, name, resets in results]
            rows.append((guarded, appended(outcomes, results)))
        stage_rows.append((mark, held, appended(changes, rows)))
    return plan(ceilings, comparisons, stage_rows, changes, outcomes, appended(comparisons, goal))


STAGE, BUS, CALL, GREEN = range(4)


# The junction at the station: a main road, a side road, a bus lane and a crossing for pedestrians.
# x0: in this stage; x1: since the bus asked; x2: since the button was pressed; x3: since the main
# road's green began. A lap begins with that green. x1 and x2 run on after they were answered, but
# never through a whole lap: the end of a bus green sets x2 to zero, the end of a walk x1, and the
# end of the side road's green both.
def station(bus_mark, walk_mark, goal):
    # Amber, red or both, for so many seconds exactly.
    def intergreen(seconds, results):
        return (NONE, [at_most(STAGE, seconds)], [([at_least(STAGE, seconds)], results)])

    # A green of a shortest and a longest time.
    def green(mark, shortest, longest, results):
        return (mark, [at_most(STAGE, longest)], [([at_least(STAGE, shortest)], results)])

    # The main road has its green for 20 to 45 s.
    shortest, longest = at_least(GREEN, 20), at_most(GREEN, 45)
    return plan_of_stages([60, 300, 300, 180], {
        # Of ten laps, the first to come is a bus in three, a pedestrian in four, and a car on the
        # side road in three. That may be at any time from 2 s of green on.
        'main green': (NONE, [longest], [([at_least(GREEN, 2)], [
            (3, 'main green, a bus waits', [STAGE, BUS]),
            (4, 'main green, a call waits', [STAGE, CALL]),
            (3, 'main green, a car waits', [STAGE])])]),
        # A bus has its amber within 20 s of asking. In three of ten such waits somebody calls.
        'main green, a bus waits': (NONE, [longest, at_most(BUS, 20)], [([shortest], [
            (7, 'amber, bus next', [STAGE]),
            (3, 'main green, both wait', [STAGE, CALL])])]),
        # A call has its amber within 30 s. In three of ten such waits a bus asks.
        'main green, a call waits': (NONE, [longest, at_most(CALL, 30)], [([shortest], [
            (7, 'amber, walk next', [STAGE]),
            (3, 'main green, both wait', [STAGE, BUS])])]),
        'main green, both wait': (NONE, [longest, at_most(BUS, 20)], [([shortest], [
            (1, 'amber, both wait', [STAGE])])]),
        'main green, a car waits': (NONE, [longest], [([shortest], [
            (1, 'amber, side road next', [STAGE])])]),

        'amber, bus next': intergreen(3, [(1, 'red, bus next', [STAGE])]),
        'red, bus next': intergreen(2, [(1, 'bus green', [STAGE])]),
        'bus green': green(bus_mark, 5, 15, [(1, 'intergreen, main road next', [STAGE, CALL])]),

        # As one walk of five begins, a bus asks. It has to wait for the end of the walk.
        'amber, walk next': intergreen(3, [(1, 'red, walk next', [STAGE])]),
        'red, walk next': intergreen(2, [
            (4, 'walk', [STAGE]),
            (1, 'walk, a bus waits', [STAGE, BUS])]),
        'walk': green(walk_mark, 10, 20, [(1, 'intergreen, main road next', [STAGE, BUS])]),
        'walk, a bus waits': green(walk_mark, 10, 20, [(1, 'red, bus next', [STAGE])]),

        # The bus goes first if the call is at most 15 s older, the call if it is at least 10 s
        # older: between the two either may.
        'amber, both wait': intergreen(3, [(1, 'red, both wait', [STAGE])]),
        'red, both wait': (NONE, [at_most(STAGE, 2)], [
            ([at_least(STAGE, 2), lead_at_most(CALL, BUS, 15)], [
                (1, 'bus green, a call waits', [STAGE])]),
            ([at_least(STAGE, 2), lead_at_least(CALL, BUS, 10)], [
                (1, 'walk, a bus waits', [STAGE])])]),
        'bus green, a call waits': green(bus_mark, 5, 15, [(1, 'amber, walk next', [STAGE])]),

        # As the side road's green begins, a bus asks one time of four, and somebody calls one time
        # of four. Either has to wait for its end.
        'amber, side road next': intergreen(3, [(1, 'red, side road next', [STAGE])]),
        'red, side road next': intergreen(2, [
            (2, 'side green', [STAGE]),
            (1, 'side green, a bus waits', [STAGE, BUS]),
            (1, 'side green, a call waits', [STAGE, CALL])]),
        'side green': green(NONE, 8, 30, [(1, 'intergreen, main road next', [STAGE, BUS, CALL])]),
        'side green, a bus waits': green(NONE, 8, 30, [(1, 'amber, bus next', [STAGE])]),
        'side green, a call waits': green(NONE, 8, 30, [(1, 'amber, walk next', [STAGE])]),

        # Amber and red together.
        'intergreen, main road next': intergreen(5, [(1, 'main green', [STAGE, GREEN])]),
    }, goal)


# How often does a bus have its green within 20 s of asking?
STATION_BUS = station(BOTH, NONE, [at_most(BUS, 20)])

# How often does the walk signal show within 30 s of the call?
STATION_CALL = station(NONE, BOTH, [at_most(CALL, 30)])


# Writes a plan to this folder.
def write(name, data):
    here = os.path.dirname(os.path.abspath(__file__))
    with open(os.path.join(here, name + '.plan'), 'wb') as f:
        f.write(data)


if __name__ == '__main__':
    write('example', EXAMPLE)
    write('crossing', CROSSING)
    write('station-bus', STATION_BUS)
    write('station-call', STATION_CALL)
