"""The ends of all orders of a script, by the reference model (tools/play.py), for tools/answer.py and
tools/explored.py. docs/SCRIPTS.md has what a move, an order and an end are.
"""

import collections

import play

# The most orders that `explore` visits.
MOST_ORDERS = 4_000_000

# A script after some moves: the channels, how many transactions each seat has committed, the stop of each seat or none,
# and the replies of each seat.
State = collections.namedtuple("State", "chans commits stops replies")
# An end: how the seats ended in a word, the lines of those that did not finish, and what is seen of the channels.
End = collections.namedtuple("End", "word lines channels")


def opening(script):
    seats = len(script["seats"])
    return State(tuple(map(play.opened, script["channels"])), (0,) * seats, (None,) * seats, ((),) * seats)


def changed(values, at, value):
    return values[:at] + (value,) + values[at + 1:]


def turn(seats, state, seat):
    """The state after a seat's next turn, or none if the turn is no move; and the line of a seat that cannot move and
    has not finished."""
    number = state.commits[seat]
    if state.stops[seat]:
        return None, f"seat {seat} txn {number} stopped: {state.stops[seat]}"
    if number == len(seats[seat]):
        return None, None
    try:
        chans, _, lines = play.run(seats[seat][number], state.chans, seat)
    except play.Retry as retry:
        return None, f"seat {seat} txn {number} stalled: {retry}"
    except play.Stop as stop:
        return state._replace(stops=changed(state.stops, seat, str(stop))), None
    replies = changed(state.replies, seat, (*state.replies[seat], play.replies_of(lines)))
    return State(chans, changed(state.commits, seat, number + 1), state.stops, replies), None


def turns(seats, state):
    """The next turn of each seat."""
    return [turn(seats, state, seat) for seat in range(len(seats))]


def seen_of(state):
    """What the program sees of a state: no item and no reply."""
    return tuple((chan.closed, *map(len, chan.lists)) for chan in state.chans), state.commits, state.stops


def end_of(state, next_turns):
    """The end at a state where no seat can move."""
    lines = tuple(line for _, line in next_turns if line)
    word = "stopped" if any(state.stops) else "stalled" if lines else "done"
    return End(word, lines, seen_of(state)[0])


def ends(script, identity=seen_of, most=MOST_ORDERS):
    """The ends of all orders, each with an order that leads there, in the order in which the program finds them; none
    if that takes `most` orders. Of the states with one identity only the first is visited."""
    waiting, seen, found = [((), opening(script))], set(), []
    for _ in range(most):
        if not waiting:
            return found
        order, state = waiting.pop()
        if identity(state) in seen:
            continue
        seen.add(identity(state))
        next_turns = turns(script["seats"], state)
        moved = [((*order, seat), left) for seat, (left, _) in enumerate(next_turns) if left]
        waiting += moved
        if not moved:
            found.append((end_of(state, next_turns), order))
    return None


def follow(script, order):
    """The end to which an order leads, or none if a turn of it is no move or a seat can move after it."""
    state = opening(script)
    for seat in order:
        state, _ = turn(script["seats"], state, seat)
        if state is None:
            return None
    next_turns = turns(script["seats"], state)
    return None if any(left for left, _ in next_turns) else end_of(state, next_turns)
