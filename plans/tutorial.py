#!/usr/bin/env python3
"""The plan of docs/TUTORIAL.md, as it was first drawn and as it was mended."""
from build import BOTH, NONE, at_least, at_most, plan_of_stages, write

STAGE, CALL = 0, 1  # x0: since the cars' green, or the stage; x1: since the button was pressed


def crossing(ceilings):
    return plan_of_stages(ceilings, {
        # stage 0: cars have green for at most 40 s before something happens
        'traffic': (NONE, [at_most(STAGE, 40)], [
            ([at_least(STAGE, 5)], [
                (3, 'a call waits', [CALL]),      # of four times somebody presses the button in three,
                (1, 'traffic', [STAGE, CALL])])   # and nobody comes in one
        ]),
        # stage 1: the cars' green goes on; it has had 12 s, and the call waits for at most 25 s
        'a call waits': (NONE, [at_most(CALL, 25)], [
            ([at_least(STAGE, 12)], [
                (3, 'amber', [STAGE]),            # of four times three go on to amber,
                (1, 'a bus first', [STAGE])])     # and one sees a bus that is let through
        ]),
        # stage 2: a bus is let through in 4 to 8 s
        'a bus first': (NONE, [at_most(STAGE, 8)], [
            ([at_least(STAGE, 4)], [(1, 'amber', [STAGE])])
        ]),
        # stage 3: amber for 3 s
        'amber': (NONE, [at_most(STAGE, 3)], [
            ([at_least(STAGE, 3)], [(1, 'walk', [STAGE])])
        ]),
        # stage 4: walk, in time or too late
        'walk': (BOTH, [at_most(STAGE, 8)], [
            ([at_least(STAGE, 8)], [(1, 'traffic', [STAGE, CALL])])
        ]),
    }, [at_most(CALL, 20)])                       # in time: within 20 s of pressing


write('tutorial-first', crossing([60, 60]))
write('tutorial', crossing([90, 60]))
