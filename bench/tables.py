#!/usr/bin/env python3
"""tables.py DIR: writes the benchmark tables. Those with a letter are accepted.

a  65,536 states, 20 rows of span 16; half of the conditions read the sum value
b  65,536 states, 24 rows of span 256 that the state rules out or not
c   1,024 states, 32 + 32 rows of span 256, all enabled
d   4,096 states, 16 internal rows of span 16 with a measure, 8 visible rows
e     256 states, 8 rows of span 256 with large terms
f  65,536 states, the rows of the pump table
g  65,536 states, one row a side of span 1 with nothing in it: what an advance costs by itself
a, c, d and e divide by numbers, b, f and g not at all.

by_..  accepted, and divide in conditions, data and next values; but for the first by what is computed:
by_number    65,536 states, 12 rows of span 16; by numbers
by_count     65,536 states, rows of span up to 16; by a count of pumps that the invariant keeps from 0
by_count_wide   256 states, 8 rows of span 256; the same
by_two        4,096 states, 8 rows of span 16; each by two parameters that the invariant keeps from 0
by_more      65,536 states, 8 rows of span 16; by a parameter and one
by_less      65,536 states, 8 rows of span 16; by a parameter less one, which the invariant keeps from 0
by_sum        4,096 states, 8 rows of span 256; by the sum value and one
by_guarded   65,536 states, 4 rows of span 4; where the divisor, a parameter, is 0, in a quarter of the states, the branch is not taken
by_remainder  the same, by a remainder
by_late       4,096 states, 24 rows of span 64; the state rules them out or not in a part before that which divides, by a count as above
by_late_sum   the same, by the sum value and one

For the walk, by groups; each name begins with that of its group. All are accepted but for failing_.. . Where 32 rows a side or 65,536 states would
take plain C many seconds there are fewer: heavy_guarded and heavy_matched at the limits take 8 times as long, heavy_visible 40 times.
heavy_guarded   65,536 states, 4 rows a side of span 256, each enabled for one sum value by a small comparison with a number
heavy_matched   65,536 states, 4 rows a side of span 256, each enabled for one sum value, which the state says
heavy_visible   16,384 states, 3 rows a side of span 256, all enabled, short terms
heavy_internal  16,384 states, internal rows only, 4 of span 64
heavy_idle      65,536 states, 32 rows a side of span 256; nothing reads the sum value
heavy_pump      65,536 states, the rows of the pump table, one of span 256
real_kit        a sender, a line and a receiver that shake hands, as a kit of components would write them; a queue of 3
real_locks_4    4 clients and a lock that is cleared after its holder has left, and a value that the holder writes
real_locks_6    6 clients and such a lock
real_pumps_N    2, 3 or 4 pumps side by side, as in the pump table
real_pipe_N     3 or 4 places that a price passes, a queue; the mapping reads all
real_pipe_8     8 places, of which the specification knows how many are taken
real_bit        the alternating bit protocol, a line for each way
real_bit_log    the same, with a log that counts what was delivered
real_stages     4 stages, each with a clock that runs down
real_in_turn    4 such stages that take turns
real_tank       a tank with a level and a sensor that follows it, a valve, a pump and a mode
parts_choice    1,024 states, 8 rows a side of span 16; large terms in both branches of `6`
parts_and       65,536 states, 16 rows a side of span 16; a large part of `15` beside a small one that mostly doesn't hold
parts_or        4,096 states, 8 rows a side of span 16; a large part of `16` beside a small one that mostly holds
parts_deep      256 states, 4 rows a side of span 256; `6` in `6`
shuffled_..     those called real_.., the implementation's parameters of odd number before those of even number
opaque_..       those called real_.., the invariant one formula in which no part is seen; not real_kit, which needs none
failing_..      all these with one mistake, so that a late state fails, or a middle one

rising, falling, scattered  a chain of 65,535 internal steps over 65,536 states, in that order of their numbers; the first two have their
measure and are accepted

limits   as many parameters, rows and fields as a text may have; two fields in three have two digits
room     the same, with room for a line of marks
blanks   as many fields, nearly all of one digit
numbers  as many fields, of numbers of five digits where there may be any number
digits   as many fields, all of five digits: turned down by 4, when the fields have been read twice and the terms not yet
"""
import sys
from collections import namedtuple

NUM, PAR, SUM, ADD, SUB, REM, CHOICE = 0, 1, [2], 3, 4, 5, 6
TRUE, FALSE, EQUAL, LESS, NOT, AND, OR = [10], [11], 12, 13, 14, 15, 16


def num(n): return [NUM, n]
def par(i): return [PAR, i]
def add(v, w): return [ADD] + v + w
def sub(v, w): return [SUB] + v + w
def rem(v, w): return [REM] + v + w
def choice(f, v, w): return [CHOICE] + f + v + w
def equal(v, w): return [EQUAL] + v + w
def less(v, w): return [LESS] + v + w
def both(f, g): return [AND] + f + g
def either(f, g): return [OR] + f + g
def negation(f): return [NOT] + f


def text(impl, spec, impl_rows, spec_rows, invariant, mapping, measure):
    lines = [[1, z, i] for z, i in impl] + [[2, z, i] for z, i in spec]
    for kind, rows in ((3, impl_rows), (4, spec_rows)):
        for action, span, condition, data, nexts in rows:
            lines.append([kind, action, span] + condition + data + sum(nexts, []))
    lines += [[5] + invariant, [6] + sum(mapping, []), [7] + measure]
    return ''.join(''.join('%6d' % f for f in line) + '\n' for line in lines)


def same(rows, impl, spec, invariant=TRUE):
    """both processes the same"""
    return text(impl, spec, rows, rows, invariant, [par(i) for i in range(len(spec))], num(0))


def a():
    rows = []
    for i in range(20):
        state = equal(rem(par(0), num(20)), num(i))
        condition = both(state, less(SUM, num(12))) if i % 2 else state
        rows.append((i + 1, 16, condition, add(par(1), SUM), [rem(add(par(0), SUM), num(256)), par(1)]))
    return same(rows, [(256, 0), (256, 0)], [(256, 0), (256, 0)])


def b():
    rows = [(i + 1, 256, equal(par(0), num(10 * i)), add(SUM, par(1)), [par(0), SUM]) for i in range(24)]
    return same(rows, [(256, 0), (256, 0)], [(256, 0), (256, 0)])


def c():
    rows = [(i + 1, 256, TRUE, add(SUM, num(i)), [par(0), rem(add(SUM, num(i)), num(32))]) for i in range(32)]
    return same(rows, [(32, 0), (32, 0)], [(32, 0), (32, 0)])


def d():
    internal = [(0, 16, both(equal(rem(par(1), num(16)), num(i)), less(num(0), par(0))), num(0), [sub(par(0), num(1)), par(1)]) for i in range(16)]
    impl = [(i + 1, 16, both(equal(par(0), num(0)), equal(rem(par(1), num(8)), num(i))), SUM, [SUM, par(1)]) for i in range(8)]
    spec = [(i + 1, 16, equal(rem(par(0), num(8)), num(i)), SUM, [par(0)]) for i in range(8)]
    return text([(16, 0), (256, 0)], [(256, 0)], internal + impl, spec, TRUE, [par(1)], par(0))


def e():
    deep = SUM
    for i in range(4):
        deep = choice(less(par(i % 2), rem(add(par(0), num(i)), num(19))), add(deep, num(1)), num(i))
    rows = [(i + 1, 256, less(SUM, num(200)), deep, [par(0), rem(deep, num(16))]) for i in range(4)]
    return same(rows, [(16, 0), (16, 0)], [(16, 0), (16, 0)], less(par(0), num(65535)))


def f():
    phase, price = par(0), par(1)
    take = (1, 4, equal(phase, num(0)), SUM, [num(1), SUM])
    move = (0, 1, equal(phase, num(1)), num(0), [num(2), price])
    show = (2, 1, equal(phase, num(2)), price, [num(0), price])
    must_take = (1, 4, equal(phase, num(0)), SUM, [num(1), SUM])
    must_show = (2, 1, equal(phase, num(1)), price, [num(0), price])
    return text([(4, 0), (16384, 0)], [(2, 0), (16384, 0)], [take, move, show], [must_take, must_show], less(phase, num(3)),
                [choice(equal(phase, num(0)), num(0), num(1)), price], choice(equal(phase, num(1)), num(1), num(0)))


def g():
    return same([(1, 1, TRUE, num(0), [par(0), par(1)])], [(256, 0), (256, 0)], [(256, 0), (256, 0)])


def by_number():
    rows = []
    for i in range(12):
        state = equal(rem(par(0), num(12)), num(i))
        condition = both(state, less(rem(SUM, num(7)), num(6))) if i % 2 else state
        nexts = [rem(add(par(i), SUM), num(256)) for i in range(2)]
        rows.append((i + 1, 16, condition, rem(add(par(1), SUM), num(251)), nexts))
    return same(rows, [(256, 0), (256, 0)], [(256, 0), (256, 0)])


def by_count():
    """Phase, pumps and ticket: a car with a ticket goes to the slot ticket mod pumps. A ticket is taken in phase 0 and printed after it."""
    def rows(pumps, ticket, here, next_state):
        slot = rem(ticket, pumps)
        return [
            (1, 16, here(TRUE), slot, next_state(1, pumps, rem(add(ticket, SUM), num(2048)))),
            (2, 1, here(less(slot, num(8))), slot, next_state(0, pumps, ticket)),
            (3, 16, here(equal(rem(SUM, pumps), slot)), rem(add(ticket, SUM), pumps),
             next_state(1, pumps, rem(add(ticket, slot), num(2048)))),
            (4, 15, here(equal(slot, num(0))), SUM, next_state(0, add(SUM, num(1)), ticket)),
        ]
    phase, ready = par(0), equal(par(0), num(0))
    impl = rows(par(1), par(2), lambda f: both(ready, f), lambda after, *values: [num(after), *values])
    spec = rows(par(0), par(1), lambda f: f, lambda after, *values: [*values])
    printing = (0, 1, equal(phase, num(1)), num(0), [num(0), par(1), par(2)])
    return text([(2, 0), (16, 4), (2048, 0)], [(16, 4), (2048, 0)], [printing] + impl, spec, less(num(0), par(1)), [par(1), par(2)], phase)


def by_count_wide():
    pumps = par(0)
    nexts = [pumps, rem(SUM, pumps)]
    rows = [(i + 1, 256, less(rem(add(SUM, num(i)), pumps), num(i + 2)), rem(add(SUM, par(1)), pumps), nexts) for i in range(8)]
    return same(rows, [(16, 1), (16, 0)], [(16, 1), (16, 0)], less(num(0), pumps))


def by_two():
    first, second = par(0), par(1)
    rows = [(i + 1, 16, equal(rem(SUM, first), rem(num(i), second)), rem(add(SUM, second), first), [first, second]) for i in range(8)]
    return same(rows, [(64, 1), (64, 1)], [(64, 1), (64, 1)], both(less(num(0), first), less(num(0), second)))


def slots(divisor, initial, invariant):
    slot = rem(add(par(1), SUM), divisor)
    rows = [(i + 1, 16, equal(rem(par(1), divisor), num(i)), slot, [par(0), slot]) for i in range(8)]
    return same(rows, [(256, initial), (256, 0)], [(256, initial), (256, 0)], invariant)


def by_more():
    return slots(add(par(0), num(1)), 0, TRUE)


def by_less():
    return slots(sub(par(0), num(1)), 2, less(num(1), par(0)))


def by_sum():
    slot = rem(par(1), add(SUM, num(1)))
    rows = [(i + 1, 256, less(slot, num(8 + i)), slot, [rem(add(par(0), SUM), num(16)), slot]) for i in range(8)]
    return same(rows, [(16, 0), (256, 0)], [(16, 0), (256, 0)])


def not_by_zero(divisor):
    rows = []
    for i in range(4):
        slot = choice(equal(divisor, num(0)), num(i), rem(add(par(1), num(i)), divisor))
        after = choice(negation(equal(divisor, num(0))), rem(add(par(1), SUM), divisor), par(1))
        rows.append((i + 1, 4, less(slot, num(i + 1)), add(slot, SUM), [par(0), after]))
    return same(rows, [(4, 0), (16384, 0)], [(4, 0), (16384, 0)])


def by_guarded(): return not_by_zero(par(0))


def by_remainder(): return not_by_zero(rem(par(1), num(4)))


def late(divisor, invariant):
    in_time = less(rem(SUM, divisor), num(60))
    rows = [(i + 1, 64, both(equal(par(0), num(2 * i)), in_time), rem(add(SUM, par(1)), divisor), [par(0), par(1)]) for i in range(24)]
    return same(rows, [(64, 0), (64, 1)], [(64, 0), (64, 1)], invariant)


def by_late():
    return late(par(1), less(num(0), par(1)))


def by_late_sum():
    return late(add(SUM, num(1)), TRUE)


HALF = num(32768)
NUMBER = add(par(1), choice(equal(par(0), num(0)), num(0), HALF))


def chain(following, last, measure):
    """from each state but the last to that of this number"""
    step = (0, 1, negation(equal(NUMBER, num(last))), num(0), [choice(less(following, HALF), num(0), num(1)), rem(following, HALF)])
    return text([(2, 0), (32768, 0)], [(1, 0)], [step], [], TRUE, [num(0)], measure)


def rising():
    return chain(add(NUMBER, num(1)), 65535, sub(num(65535), NUMBER))


def falling():
    return chain(sub(NUMBER, num(1)), 0, NUMBER)


def scattered():
    return chain(add(NUMBER, num(40503)), 20000, num(0))


def all_of(n, formula):
    """a formula n times, each joined to those behind it"""
    return formula if n == 1 else both(formula, all_of(n - 1, formula))


def halved(n, formula):
    """a formula n times, joined half to half"""
    return formula if n == 1 else both(halved(n // 2, formula), halved(n - n // 2, formula))


def of_most_rows(condition, datum, invariant, nexts, measure):
    parameters = [(4, 3)] * 8
    rows = [(i + 1, 256, condition, datum(i), nexts) for i in range(32)]
    return text(parameters, parameters, rows, rows, invariant, nexts, measure)


KEPT = [par(i) for i in range(8)]


def of_short_terms(n):
    return of_most_rows(all_of(20, TRUE), lambda i: par(i % 8), halved(n, TRUE), KEPT, num(0))


def limits():
    return of_short_terms(94)


def room():
    return of_short_terms(93)


def sum_of(n):
    """a parameter n times, added half to half"""
    return par(1) if n == 1 else add(sum_of(n // 2), sum_of(n - n // 2))


def blanks():
    return of_most_rows(TRUE, lambda i: sum_of(14), negation(less(sum_of(40), num(0))), KEPT, num(0))


def numbers():
    large = num(65535)
    same = equal(large, large)
    return of_most_rows(all_of(7, same), lambda i: large, halved(10, same), [large] * 8, large)


def digits():
    return (' 65535' * 64 + '\n') * 64


# ---- tables for the walk, as designs that can be changed before they are written ----

Design = namedtuple('Design', 'impl spec impl_rows spec_rows invariant mapping measure')


def alike(sizes, rows, invariant=TRUE):
    """both processes the same"""
    parameters = [(size, 0) for size in sizes]
    return Design(parameters, parameters, rows, rows, invariant, [par(i) for i in range(len(sizes))], num(0))


def all_hold(formulas):
    return formulas[0] if len(formulas) == 1 else both(formulas[0], all_hold(formulas[1:]))


def total(values):
    return values[0] if len(values) == 1 else add(values[0], total(values[1:]))


def set_to(count, changes):
    """the next values of a row with so many parameters: as they are, but for those of the changes, each a parameter's number and a value"""
    values = dict(changes)
    return [values.get(i, par(i)) for i in range(count)]


def heavy_guarded():
    return alike([256, 256], [(i + 1, 256, equal(SUM, num(60 * i + 3)), par(0), [par(0), SUM]) for i in range(4)])


def heavy_matched():
    rows = [(i + 1, 256, equal(SUM, par(1)), add(SUM, num(i)), [par(0), rem(add(SUM, num(i + 1)), num(256))]) for i in range(4)]
    return alike([256, 256], rows)


def heavy_visible():
    return alike([64, 256], [(i + 1, 256, TRUE, add(SUM, num(i)), [par(0), SUM]) for i in range(3)])


def heavy_internal():
    rows = [(0, 64, less(add(SUM, num(i)), par(0)), num(0), [SUM, par(1)]) for i in range(4)]
    return Design([(64, 0), (256, 0)], [(256, 0)], rows, [], TRUE, [par(1)], par(0))


def heavy_idle():
    on = rem(add(par(0), num(1)), num(256))
    return alike([256, 256], [(i + 1, 256, equal(rem(par(0), num(32)), num(i)), par(1), [on, par(1)]) for i in range(32)])


def pumps(count, phases, prices, span):
    """Phase and price of each pump: 0 ready, 1 taken, 2 to be shown; the specification doesn't know 1."""
    width, impl, spec = 2 * count, [], []
    for i in range(count):
        phase, price = par(2 * i), par(2 * i + 1)
        stands = lambda n: equal(phase, num(n))
        impl += [(2 * i + 1, span, stands(0), SUM, set_to(width, [(2 * i, num(1)), (2 * i + 1, SUM)])),
                 (0, 1, stands(1), num(0), set_to(width, [(2 * i, num(2))])),
                 (2 * i + 2, 1, stands(2), price, set_to(width, [(2 * i, num(0))]))]
        spec += [(2 * i + 1, span, stands(0), SUM, set_to(width, [(2 * i, num(1)), (2 * i + 1, SUM)])),
                 (2 * i + 2, 1, stands(1), price, set_to(width, [(2 * i, num(0))]))]
    one_if = lambda f: choice(f, num(1), num(0))
    mapping = sum([[one_if(negation(equal(par(2 * i), num(0)))), par(2 * i + 1)] for i in range(count)], [])
    invariant = all_hold([less(par(2 * i), num(3)) for i in range(count)])
    measure = total([one_if(equal(par(2 * i), num(1))) for i in range(count)])
    return Design([(phases, 0), (prices, 0)] * count, [(2, 0), (prices, 0)] * count, impl, spec, invariant, mapping, measure)


def heavy_pump(): return pumps(1, 4, 16384, 256)


def real_pumps_2(): return pumps(2, 4, 64, 64)


def real_pumps_3(): return pumps(3, 4, 10, 10)


def real_pumps_4(): return pumps(4, 4, 4, 4)


def nth(places, n):
    """What is in the n-th of the places that are taken, or 0. A place is the formula by which it is free, and what is in it; no formula if that is
    0 then."""
    if len(places) <= n: return num(0)
    free, value = places[0]
    if not free: return value
    return choice(free, nth(places[1:], n), value if n == 0 else nth(places[1:], n - 1))


def queue(capacity, sizes):
    """A count, and what is in the queue, 0 behind its end. Gives the specification's parameters and rows: 1 puts in, 2 takes out."""
    count, items = par(0), [par(i + 1) for i in range(capacity)]
    lowest = sizes[0]
    put = [add(count, num(1))] + [choice(equal(count, num(i)), add(SUM, num(lowest)) if lowest else SUM, item) for i, item in enumerate(items)]
    take = [sub(count, num(1))] + items[1:] + [num(0)]
    return ([(capacity + 1, 0)] + [(sizes[2], 0)] * capacity,
            [(1, sizes[1], less(count, num(capacity)), SUM, put), (2, 1, less(num(0), count), items[0], take)])


def real_kit():
    prices, width = 20, 6
    taken = lambda i: equal(par(2 * i), num(1))
    empty = lambda i: equal(par(2 * i), num(0))
    rows = [(1, prices, empty(0), SUM, set_to(width, [(0, num(1)), (1, SUM)])), (2, 1, taken(2), par(5), set_to(width, [(4, num(0))]))]
    for i in range(2):
        hands = both(taken(i), both(empty(i + 1), equal(par(2 * i + 1), SUM)))
        rows.append((0, prices, hands, num(0), set_to(width, [(2 * i, num(0)), (2 * i + 2, num(1)), (2 * i + 3, SUM)])))
    places = [(empty(i), par(2 * i + 1)) for i in (2, 1, 0)]
    spec, spec_rows = queue(3, (0, prices, prices))
    return Design([(2, 0), (prices, 0)] * 3, spec, rows, spec_rows, TRUE, [total([par(0), par(2), par(4)])] + [nth(places, n) for n in range(3)],
                  add(add(par(0), par(0)), par(2)))


def pipe(count, size):
    """Places that hold a price and one, or 0; the highest number is never used. The price passes from the first to the last."""
    free = lambda i: equal(par(i), num(0))
    taken = lambda i: negation(free(i))
    last = count - 1
    rows = [(1, size - 2, free(0), SUM, set_to(count, [(0, add(SUM, num(1)))])), (2, 1, taken(last), par(last), set_to(count, [(last, num(0))]))]
    rows += [(0, 1, both(taken(i), free(i + 1)), num(0), set_to(count, [(i, num(0)), (i + 1, par(i))])) for i in range(last)]
    invariant = all_hold([less(par(i), num(size - 1)) for i in range(count)])
    one_if_taken = [choice(free(i), num(0), num(1)) for i in range(count)]
    measure = total([choice(free(i), num(0), num(last - i)) for i in range(last)])
    return rows, free, invariant, total(one_if_taken), measure


def real_pipe_3(): return pipe_as_queue(3, 40)


def real_pipe_4(): return pipe_as_queue(4, 16)


def pipe_as_queue(count, size):
    rows, free, invariant, how_many, measure = pipe(count, size)
    places = [(free(i) if i else None, par(i)) for i in reversed(range(count))]
    spec, spec_rows = queue(count, (1, size - 2, size))
    return Design([(size, 0)] * count, spec, rows, spec_rows, invariant, [how_many] + [nth(places, n) for n in range(count)], measure)


def real_pipe_8():
    rows, _, invariant, how_many, measure = pipe(8, 4)
    rows[1] = rows[1][:3] + (num(0),) + rows[1][4:]
    count = par(0)
    spec_rows = [(1, 2, less(count, num(8)), SUM, [add(count, num(1))]), (2, 1, less(num(0), count), num(0), [sub(count, num(1))])]
    return Design([(4, 0)] * 8, [(9, 0)], rows, spec_rows, invariant, [how_many], measure)


def locks(clients, values):
    """Phase of each client: 0 idle, 1 waiting, 2 inside, 3 leaving; who holds the lock, or 0; the value. The specification knows no 3 and no
    holder."""
    holder, value, width = clients, clients + 1, clients + 1 + (values > 0)
    impl, spec, links = [], [], []
    spec_width = clients + (values > 0)
    free = all_hold([negation(equal(par(i), num(2))) for i in range(clients)])
    for i in range(clients):
        stands = lambda n: equal(par(i), num(n))
        held = equal(par(holder), num(i + 1))
        ask, enter, leave, write = 4 * i + 1, 4 * i + 2, 4 * i + 3, 4 * i + 4
        impl += [(ask, 1, stands(0), num(0), set_to(width, [(i, num(1))])),
                 (enter, 1, both(stands(1), equal(par(holder), num(0))), num(0), set_to(width, [(i, num(2)), (holder, num(i + 1))])),
                 (leave, 1, stands(2), num(0), set_to(width, [(i, num(3))])),
                 (0, 1, stands(3), num(0), set_to(width, [(i, num(0)), (holder, num(0))]))]
        spec += [(ask, 1, stands(0), num(0), set_to(spec_width, [(i, num(1))])),
                 (enter, 1, both(stands(1), free), num(0), set_to(spec_width, [(i, num(2))])),
                 (leave, 1, stands(2), num(0), set_to(spec_width, [(i, num(0))]))]
        if values:
            impl.append((write, values, stands(2), SUM, set_to(width, [(value, SUM)])))
            spec.append((write, values, stands(2), SUM, set_to(spec_width, [(clients, SUM)])))
        links += [either(held, less(par(i), num(2))), either(negation(held), less(num(1), par(i)))]
    shared = [(values, 0)] if values else []
    mapping = [choice(equal(par(i), num(3)), num(0), par(i)) for i in range(clients)] + ([par(value)] if values else [])
    measure = total([choice(equal(par(i), num(3)), num(1), num(0)) for i in range(clients)])
    return Design([(4, 0)] * clients + [(clients + 1, 0)] + shared, [(3, 0)] * clients + shared, impl, spec, all_hold(links), mapping, measure)


def real_locks_4(): return locks(4, 51)


def real_locks_6(): return locks(6, 0)


def bit(data, logged):
    """Datum, bit and phase of the sender; the line there (0 empty, else 1 + datum, and more with bit 1); the receiver (0 waiting, 1 to answer,
    2 + datum to deliver) and its bit; the line back (0 empty, else 1 + bit); a log."""
    datum, sent, phase, there, receiver, due, back = [par(i) for i in range(7)]
    width = 7 + (logged > 0)
    message = add(datum, choice(equal(sent, num(0)), num(1), num(1 + data)))
    empty, waiting, is_due = equal(there, num(0)), equal(receiver, num(0)), equal(choice(less(there, num(1 + data)), num(0), num(1)), due)
    flip = lambda one: sub(num(1), one)
    on = rem(add(par(7), num(1)), num(logged)) if logged else None
    row = lambda action, span, condition, value, changes: (action, span, condition, value, set_to(width, changes))
    impl = [row(1, data, equal(phase, num(0)), SUM, [(0, SUM), (2, num(1))]),
            row(0, 1, both(equal(phase, num(1)), empty), num(0), [(2, num(2)), (3, message)]),
            row(0, 1, both(negation(empty), both(waiting, is_due)), num(0), [(3, num(0)), (4, add(rem(sub(there, num(1)), num(data)), num(2)))]),
            row(0, 1, both(negation(empty), both(waiting, negation(is_due))), num(0), [(3, num(0)), (4, num(1))]),
            row(2, 1, less(num(1), receiver), sub(receiver, num(2)), [(4, num(1)), (5, flip(due))] + ([(7, on)] if logged else [])),
            row(0, 1, both(equal(receiver, num(1)), equal(back, num(0))), num(0), [(4, num(0)), (6, sub(num(2), due))]),
            row(0, 1, both(equal(phase, num(2)), equal(back, add(sent, num(1)))), num(0), [(1, flip(sent)), (2, num(0)), (6, num(0))]),
            row(0, 1, both(equal(phase, num(2)), both(negation(equal(back, num(0))), negation(equal(back, add(sent, num(1)))))), num(0),
                [(2, num(1)), (6, num(0))])]
    spec_on = [rem(add(par(2), num(1)), num(logged))] if logged else []
    spec_log = [par(2)] if logged else []
    spec = [(1, data, equal(par(0), num(0)), SUM, [num(1), SUM] + spec_log), (2, 1, equal(par(0), num(1)), par(1), [num(0), par(1)] + spec_on)]
    if logged:
        impl.append(row(3, 1, TRUE, par(7), []))
        spec.append((3, 1, TRUE, par(2), [par(0), par(1), par(2)]))
    agree, one_if = equal(sent, due), lambda f: choice(f, num(0), num(1))
    invariant = all_hold([
        either(negation(less(phase, num(2))), all_hold([empty, waiting, equal(back, num(0)), agree])),
        either(negation(equal(phase, num(2))), equal(total([one_if(f) for f in (empty, waiting, equal(back, num(0)))]), num(1))),
        either(empty, both(equal(there, message), agree)),
        either(negation(less(num(1), receiver)), both(equal(receiver, add(datum, num(2))), agree)),
        either(negation(equal(receiver, num(1))), negation(agree)),
        either(equal(back, num(0)), both(equal(back, add(sent, num(1))), negation(agree)))])
    under_way = choice(either(negation(empty), negation(equal(back, num(0)))), num(1), num(0))
    measure = choice(either(equal(phase, num(1)), equal(receiver, num(1))), num(2), under_way)
    mapping = [choice(both(negation(equal(phase, num(0))), agree), num(1), num(0)), datum] + ([par(7)] if logged else [])
    log = [(logged, 0)] if logged else []
    return Design([(data, 0), (2, 0), (3, 0), (2 * data + 1, 0), (data + 2, 0), (2, 0), (3, 0)] + log, [(2, 0), (data, 0)] + log, impl, spec,
                  invariant, mapping, measure)


def real_bit(): return bit(8, 0)


def real_bit_log(): return bit(4, 8)


def real_stages():
    """a clock for each stage, below 12; where it has run down, the stage may be set again"""
    ticks = [(0, 1, less(num(0), par(i)), num(0), set_to(4, [(i, sub(par(i), num(1)))])) for i in range(4)]
    starts = [(i + 1, 12, equal(par(i), num(0)), SUM, set_to(4, [(i, SUM)])) for i in range(4)]
    spec = [(i + 1, 12, TRUE, SUM, [num(0)]) for i in range(4)]
    invariant = all_hold([less(par(i), num(12)) for i in range(4)])
    return Design([(16, 5)] + [(16, 0)] * 3, [(1, 0)], ticks + starts, spec, invariant, [num(0)], total([par(i) for i in range(4)]))


def real_in_turn():
    """the stage whose turn it is, and a clock for each, which runs for that one alone"""
    turn = lambda i: equal(par(0), num(i))
    ticks = [(0, 1, both(turn(i), less(num(0), par(i + 1))), num(0), set_to(5, [(i + 1, sub(par(i + 1), num(1)))])) for i in range(4)]
    ends = [(i + 1, 11, both(turn(i), equal(par(i + 1), num(0))), SUM, set_to(5, [(0, num((i + 1) % 4)), ((i + 1) % 4 + 1, SUM)])) for i in range(4)]
    spec = [(i + 1, 11, equal(par(0), num(i)), SUM, [num((i + 1) % 4)]) for i in range(4)]
    invariant = all_hold([either(turn(i), equal(par(i + 1), num(0))) for i in range(4)])
    return Design([(4, 0)] + [(11, 0)] * 4, [(4, 0)], ticks + ends, spec, invariant, [par(0)], total([par(i + 1) for i in range(4)]))


def real_tank():
    """Level and sensor, valve, pump and mode; the specification has no sensor, and shows the level itself."""
    level, sensor, valve, pump, mode = [par(i) for i in range(5)]

    def rows(names, width):
        def of(name): return par(names.index(name))
        def to(**changes): return set_to(width, [(names.index(name), value) for name, value in changes.items()])
        above = negation(less(of('level'), SUM))
        return [(1, 16, both(equal(of('valve'), num(1)), less(add(of('level'), SUM), num(60))), SUM, to(level=add(of('level'), SUM))),
                (2, 16, both(equal(of('pump'), num(1)), above), SUM, to(level=sub(of('level'), SUM))),
                (3, 2, negation(equal(of('mode'), num(3))), SUM, to(valve=SUM)),
                (4, 2, either(equal(of('mode'), num(1)), equal(of('mode'), num(2))), SUM, to(pump=SUM)),
                (5, 4, negation(equal(of('mode'), SUM)), of('mode'), to(mode=SUM))]

    impl = rows(['level', 'sensor', 'valve', 'pump', 'mode'], 5) + [
        (6, 1, equal(level, sensor), sensor, set_to(5, [])),
        (0, 1, less(sensor, level), num(0), set_to(5, [(1, add(sensor, num(1)))])),
        (0, 1, less(level, sensor), num(0), set_to(5, [(1, sub(sensor, num(1)))]))]
    spec = rows(['level', 'valve', 'pump', 'mode'], 4) + [(6, 1, TRUE, par(0), set_to(4, []))]
    apart = choice(less(sensor, level), sub(level, sensor), sub(sensor, level))
    return Design([(64, 0), (64, 0), (2, 0), (2, 0), (4, 0)], [(64, 0), (2, 0), (2, 0), (4, 0)], impl, spec,
                  both(less(level, num(60)), less(sensor, num(60))), [level, valve, pump, mode], apart)


def large(n, last):
    """a value of n times eleven fields and a last part, which reads its parameters and the sum value"""
    return last if n == 0 else add(rem(add(par(n % 2), SUM), num(97 + n)), sub(large(n - 1, last), par(0)))


def parts_choice():
    small = lambda i: less(rem(add(par(0), num(i)), num(7)), num(3))
    rows = []
    for i in range(8):
        value = choice(small(i), large(4, num(i)), large(5, par(1)))
        rows.append((i + 1, 16, TRUE, value, [par(0), rem(value, num(32))]))
    return alike([32, 32], rows)


def parts_and():
    after = [par(0), rem(add(par(1), SUM), num(256))]
    rows = [(i + 1, 16, both(equal(par(0), num(15 * i)), less(large(5, par(1)), num(60000))), add(par(1), SUM), after) for i in range(16)]
    return alike([256, 256], rows)


def parts_or():
    after = [par(0), rem(add(par(1), SUM), num(64))]
    rows = [(i + 1, 16, either(less(add(par(0), SUM), num(60 + i)), less(large(5, par(1)), num(60000))), SUM, after) for i in range(8)]
    return alike([64, 64], rows)


def parts_deep():
    rows = []
    for i in range(4):
        value = SUM
        for k in range(4): value = choice(less(par(k % 2), rem(add(par(0), num(k + i)), num(19))), add(value, num(1)), large(1, num(k)))
        rows.append((i + 1, 256, less(SUM, num(200)), value, [par(0), rem(value, num(16))]))
    return alike([16, 16], rows)


# ---- what is made of them ----

def renamed(term, place):
    """a term with each parameter at its new place"""
    out, at = [], 0
    while at < len(term):
        if term[at] in (NUM, PAR):
            out += [term[at], place[term[at + 1]] if term[at] == PAR else term[at + 1]]
            at += 2
        else:
            out.append(term[at])
            at += 1
    return out


def shuffled(d):
    count = len(d.impl)
    order = list(range(1, count, 2)) + list(range(0, count, 2))
    place = [order.index(i) for i in range(count)]
    rows = [(action, span, renamed(condition, place), renamed(value, place), [renamed(row_nexts[i], place) for i in order])
            for action, span, condition, value, row_nexts in d.impl_rows]
    return d._replace(impl=[d.impl[i] for i in order], impl_rows=rows, invariant=renamed(d.invariant, place),
                      mapping=[renamed(value, place) for value in d.mapping], measure=renamed(d.measure, place))


def opaque(d):
    return d._replace(invariant=either(d.invariant, FALSE))


# Of a table, the field that is changed, its line and place counted from 0, and what it becomes: of such edits one that fails late.
EDITS = {
    'heavy_idle': (35, 20, 255), 'heavy_pump': (6, 9, 0),
    'real_bit': (12, 23, 8), 'real_bit_log': (13, 22, 4), 'real_in_turn': (20, 7, 4), 'real_kit': (12, 17, 2), 'real_locks_4': (14, 13, 2),
    'real_locks_6': (16, 13, 2), 'real_pipe_8': (18, 7, 9), 'real_pumps_2': (10, 9, 2), 'real_pumps_3': (22, 13, 2), 'real_pumps_4': (29, 13, 2),
    'real_tank': (17, 12, 1), 'parts_and': (19, 10, 4), 'parts_deep': (10, 29, 3), 'parts_or': (11, 11, 12),
}

# Where every edit fails early, or is early after the shuffle: a row, counted from 0, that is wrong where the first parameter has this value.
LATE = {
    'heavy_guarded': (3, 255), 'heavy_matched': (3, 255), 'heavy_visible': (2, 63), 'heavy_internal': (3, 63), 'real_pipe_3': (1, 38),
    'real_pipe_4': (1, 14), 'real_stages': (7, 11), 'parts_choice': (7, 31),
    'shuffled_kit': (1, 19), 'shuffled_locks_4': (0, 3), 'shuffled_locks_6': (0, 3), 'shuffled_pumps_2': (5, 63), 'shuffled_pumps_3': (8, 9),
    'shuffled_pumps_4': (11, 3), 'shuffled_pipe_3': (1, 38), 'shuffled_pipe_4': (1, 14), 'shuffled_pipe_8': (1, 2), 'shuffled_bit': (4, 1),
    'shuffled_bit_log': (4, 1), 'shuffled_stages': (7, 11), 'shuffled_in_turn': (0, 10), 'shuffled_tank': (5, 59),
}


PARTS = {ADD: 2, SUB: 2, REM: 2, CHOICE: 3, EQUAL: 2, LESS: 2, NOT: 1, AND: 2, OR: 2}


def terms(fields):
    """the terms that stand one after the other in these fields"""
    found, start, at, left = [], 0, 0, 1
    while at < len(fields):
        left += PARTS.get(fields[at], 0) - 1
        at += 2 if fields[at] in (NUM, PAR) else 1
        if left == 0:
            found.append(fields[start:at])
            start, left = at, 1
    return found


def edited(d, line, field, number):
    lines = [[int(field) for field in line.split()] for line in text(*d).splitlines()]
    lines[line][field] = number
    of_kind = lambda kind: [fields[1:] for fields in lines if fields[0] == kind]
    rows = lambda kind: [(fields[0], fields[1], *terms(fields[2:])[:2], terms(fields[2:])[2:]) for fields in of_kind(kind)]
    return Design(of_kind(1), of_kind(2), rows(3), rows(4), of_kind(5)[0], terms(of_kind(6)[0]), of_kind(7)[0])


def late_fault(d, row, value):
    """its data one more, or if it is internal, the first parameter kept"""
    action, span, condition, data, after = d.impl_rows[row]
    there = equal(par(0), num(value))
    wrong = (action, span, condition, add(data, choice(there, num(1), num(0))), after)
    if action == 0: wrong = (action, span, condition, data, [choice(there, par(0), after[0])] + after[1:])
    return d._replace(impl_rows=d.impl_rows[:row] + [wrong] + d.impl_rows[row + 1:])


def failing(table):
    name = table.__name__
    return edited(table(), *EDITS[name]) if name in EDITS else late_fault(table(), *LATE[name])


HEAVY = (heavy_guarded, heavy_matched, heavy_visible, heavy_internal, heavy_idle, heavy_pump)
REAL = (real_kit, real_locks_4, real_locks_6, real_pumps_2, real_pumps_3, real_pumps_4, real_pipe_3, real_pipe_4, real_pipe_8, real_bit, real_bit_log,
        real_stages, real_in_turn, real_tank)
LARGE_PARTS = (parts_choice, parts_and, parts_or, parts_deep)


def for_the_walk():
    """the names, and the designs"""
    for table in HEAVY + REAL + LARGE_PARTS:
        yield table.__name__, table()
        yield 'failing_' + table.__name__, failing(table)
    for table in REAL:
        _, name = table.__name__.split('_', 1)
        yield 'shuffled_' + name, shuffled(table())
        yield 'failing_shuffled_' + name, late_fault(shuffled(table()), *LATE['shuffled_' + name])
        if table().invariant == TRUE: continue
        yield 'opaque_' + name, opaque(table())
        yield 'failing_opaque_' + name, opaque(failing(table))


for table in (a, b, c, d, e, f, g, by_number, by_count, by_count_wide, by_two, by_more, by_less, by_sum, by_guarded, by_remainder, by_late,
              by_late_sum, rising, falling, scattered, limits, room, blanks, numbers, digits):
    with open(sys.argv[1] + '/' + table.__name__ + '.txt', 'w') as out:
        out.write(table())
for name, design in for_the_walk():
    with open(sys.argv[1] + '/' + name + '.txt', 'w') as out:
        out.write(text(*design))
