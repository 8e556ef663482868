"""Directed streams: calls that show how each open point of the rules was settled.

    python3 model/directed.py FOLDER

writes for each stream of docs/DECISIONS.md the bytes of its calls, FOLDER/NAME.in, and the bytes
that `venue` must answer, FOLDER/NAME.out; and all.in and all.out, where the streams follow each
other on one book.

A stream is a function below. It makes calls and says what the tape holds after them. The tape is
drawn to quiet before each further call. Where a stream says nothing, only quiet is answered.
Times count from the stream's beginning. Unless a stream says otherwise, orders are FaS, without
reserve and end time. All streams have the lot 50, T = R = 10,000 and F = 8,000.
"""

import pathlib
import sys

import messages
import venue
from book import Book, OrderType, Phase, Side

FAK, FAKI = OrderType.FAK, OrderType.FAKI
FAR = 100_000       # longer than a session and its FBS Period after any fill


def session(price, passive):
    return {"kind": "session", "price": price, "passive": passive}


def fill(bid, offer, size, price, bid_displayed=None, offer_displayed=None):
    record = {"kind": "fill", "bid": bid, "offer": offer, "size": size, "price": price}
    if bid_displayed is not None:
        record["bid_displayed"] = bid_displayed
    if offer_displayed is not None:
        record["offer_displayed"] = offer_displayed
    return record


def rolling(time):
    return {"kind": "rolling", "time": time}


def fbs(time):
    return {"kind": "fbs", "time": time}


def opened(time):
    return {"kind": "open", "time": time}


def removal(order, displayed, cause, time=None):
    record = {"kind": "removal", "order": order, "displayed": displayed, "cause": cause}
    return record if time is None else {**record, "time": time}


class Unexpected(AssertionError):
    """The book answers something else than the stream says."""


class Stream:
    """Makes calls on a book, takes them down as bytes, and holds the answers to what is said."""

    def __init__(self, book=None):
        self.book = book or Book()
        self.sent = bytearray()
        self.base = self.book.time
        self.broken = False             # ends inside a message or with one that is refused

    def answer(self, kind, **fields):
        message = {"kind": kind, **fields}
        self.sent += messages.write(message)
        return venue.answer(self.book, message)

    def raw(self, hexadecimal):
        """Bytes after which the program stops."""
        self.rest()
        self.sent += bytes.fromhex(hexadecimal)
        self.broken = True

    # ---- calls -----------------------------------------------------------------------------

    def bid(self, trader, price, displayed=50, reserve=0, end=0, type=OrderType.FAS, refused=0):
        return self.enter(Side.BID, trader, price, displayed, reserve, end, type, refused)

    def offer(self, trader, price, displayed=50, reserve=0, end=0, type=OrderType.FAS, refused=0):
        return self.enter(Side.OFFER, trader, price, displayed, reserve, end, type, refused)

    def enter(self, side, trader, price, displayed, reserve, end, type, refused):
        self.rest()
        reply = self.answer("entry", trader=trader, side=side, type=type, price=price,
                            displayed=displayed, reserve=reserve,
                            end=self.base + end if end else 0)
        self.expect_reply(reply, refused, number=not refused)
        return reply["order"]

    def change(self, trader, order, price, displayed=50, reserve=0, refused=0):
        self.rest()
        self.expect_reply(self.answer("change", trader=trader, order=order, price=price,
                                      displayed=displayed, reserve=reserve), refused)

    def cancel(self, trader, order, refused=0):
        self.rest()
        self.expect_reply(self.answer("cancel", trader=trader, order=order), refused)

    def tick(self, time, refused=0):
        self.rest()
        self.expect_reply(self.answer("tick", time=self.base + time), refused)

    def not_quiet(self):
        """A call before the tape is drawn."""
        self.expect_reply(self.answer("tick", time=self.book.time), 7)

    # ---- the tape --------------------------------------------------------------------------

    def rest(self):
        """Nothing but quiet is left to draw."""
        if not self.book.quiet:
            self.tape()

    def tape(self, *expected):
        """These records, and then quiet."""
        for wanted in expected:
            self.expect_record(wanted)
        self.expect_record({"kind": "quiet"})

    def expect_record(self, wanted):
        record = self.answer("draw")
        record["time"] -= self.base
        if any(record.get(name) != value for name, value in wanted.items()):
            raise Unexpected(f"{messages.text(record)}, where the stream says {wanted}")

    def expect_reply(self, reply, refused, number=False):
        if reply["refusal"] != refused or (reply["order"] != 0) != number:
            raise Unexpected(f"{messages.text(reply)}, where the stream says {refused}")

    def clear(self):
        """Cancels every order and waits until the book is open, for the next stream."""
        self.rest()
        for number, order in sorted(self.book.orders.items()):
            self.cancel(order.trader, number)
        self.rest()
        self.answer("tick", time=self.book.time + FAR)
        while not self.book.quiet:
            self.answer("draw")
        assert self.book.phase is Phase.OPEN and not self.book.orders
        self.base = self.book.time


# ---- settings that several streams begin with ------------------------------------------------
#
# Trader 3 sells and brings the session about; trader 2 is Last Buyer in all of them.


def filled_in_part(s, **bid):
    """An FBS Period at P = 100 in which trader 1 has Priority 1 with earned number n, carried by
    the order answered, which shows 50."""
    a = s.bid(1, 100, reserve=50, **bid)
    b = s.bid(2, 100)
    c = s.offer(3, 100, 100)
    s.tape(session(100, a), fill(a, c, 50, 100), fill(b, c, 50, 100))
    return a


def filled_whole(s):
    """A session at P = 100 in which an order of trader 1 has been filled whole."""
    a = s.bid(1, 100)
    b = s.bid(2, 100)
    c = s.offer(3, 100, 100)
    s.tape(session(100, a), fill(a, c, 50, 100), fill(b, c, 50, 100))


def to_fbs(s):
    """Nothing trades at the end of Timed, so Rolling ends at once."""
    s.tick(10_000)
    s.tape(rolling(10_000), fbs(10_000))


def sold_to(s, order, price=100, size=50):
    """Trader 5 offers one size, and this bid is the one that gets it."""
    f = s.offer(5, price, size)
    s.tape(fill(order, f, size, price))


# ---- the session and its owners ----------------------------------------------------------------


def owner_early(s):
    """A prior order is left at the first quiet: no Aggressive Owner, not even when it goes."""
    a, b = s.bid(1, 100), s.bid(2, 100)
    c = s.offer(3, 100)
    s.tape(session(100, a), fill(a, c, 50, 100))
    d = s.offer(3, 100)
    s.tape(fill(b, d, 50, 100))
    e = s.offer(4, 100)
    f = s.bid(1, 100)
    s.tape(fill(f, e, 50, 100))


def owner_without_trigger(s):
    """The trigger is filled whole and gone; its trader is owner all the same."""
    a = s.bid(1, 100)
    c = s.offer(3, 100)
    s.tape(session(100, a), fill(a, c, 50, 100))
    s.offer(4, 100)
    f = s.bid(1, 100)
    g = s.offer(3, 100)
    s.tape(fill(f, g, 50, 100))


def passive_owner_away(s):
    """The Passive Owner has nothing at P: nobody on his side trades before Rolling."""
    a = s.bid(1, 100)
    c = s.offer(3, 100)
    s.tape(session(100, a), fill(a, c, 50, 100))
    b = s.bid(2, 100)
    d = s.offer(3, 100)
    s.tick(9_999)
    s.tick(10_000)
    s.tape(rolling(10_000), fill(b, d, 50, 100))


def prior_restock(s):
    """Both prior orders are restocked. Only the Passive Owner's still trades."""
    a, b = s.bid(1, 100, reserve=50), s.bid(2, 100, reserve=50)
    c = s.offer(3, 100, 150)
    s.tape(session(100, a), fill(a, c, 50, 100), fill(b, c, 50, 100), fill(a, c, 50, 100))
    s.offer(3, 100)


def prior_larger(s):
    """A larger displayed size takes a new stamp, and the order is prior no more."""
    a, b = s.bid(1, 100), s.bid(2, 100, 100)
    c = s.offer(3, 100)
    s.tape(session(100, a), fill(a, c, 50, 100))
    s.change(2, b, 100, 150)
    s.offer(3, 100)


def prior_smaller(s):
    """A smaller displayed size, with another reserve, keeps the order prior."""
    a, b = s.bid(1, 100), s.bid(2, 100, 100)
    c = s.offer(3, 100)
    s.tape(session(100, a), fill(a, c, 50, 100))
    s.change(2, b, 100, 50, reserve=100)
    d = s.offer(3, 100)
    s.tape(fill(b, d, 50, 100))


def prior_return(s):
    """An order that leaves P and comes back is not prior again."""
    a, b = s.bid(1, 100), s.bid(2, 100)
    c = s.offer(3, 100)
    s.tape(session(100, a), fill(a, c, 50, 100))
    s.change(2, b, 99)
    s.change(2, b, 100)
    s.offer(3, 100)


def better_in_fbs(s):
    """In the FBS Period a better price than P stays as written, by entry and by change."""
    filled_whole(s)
    to_fbs(s)
    b = s.bid(4, 101)
    sold_to(s, b, 101)
    e = s.bid(4, 99)
    s.change(4, e, 102)
    sold_to(s, e, 102)


def rolling_end(s):
    """Rolling ends R after the session's last fill, in Timed or in Rolling."""
    filled_whole(s)
    to_fbs(s)
    s.tick(30_000)
    s.tape(opened(18_000))
    a = s.bid(1, 100)
    c = s.offer(3, 100)
    s.tape(session(100, a), fill(a, c, 50, 100))
    s.tick(34_000)
    d, e = s.bid(1, 100), s.offer(3, 100)
    s.tape(fill(d, e, 50, 100))
    s.tick(43_999)
    s.tape(rolling(40_000))
    f, g = s.bid(6, 100), s.offer(7, 100)
    s.tape(fill(f, g, 50, 100))
    s.tick(61_998)
    s.tape(fbs(53_999))
    s.tick(61_999)
    s.tape(opened(61_999))


def no_session_in_fbs(s):
    """A fill in the FBS Period begins no session and puts nothing off."""
    filled_whole(s)
    to_fbs(s)
    s.tick(12_000)
    b = s.bid(4, 100)
    sold_to(s, b)
    s.tick(18_000)
    s.tape(opened(18_000))


# ---- sizes, stamps and changes -----------------------------------------------------------------


def restock_when_used_up(s):
    """A fill that leaves something displayed draws nothing from the reserve."""
    a = s.bid(1, 100, 100, reserve=150)
    s.bid(2, 100)
    c = s.offer(3, 100)
    s.tape(session(100, a), fill(a, c, 50, 100, 50, 0))
    d = s.offer(3, 100)
    s.tape(fill(a, d, 50, 100, 100, 0))


def larger_than_now(s):
    """50 of 100 are left; 100 again is larger than 50, so the order goes behind."""
    a, b = s.bid(1, 100, 100), s.bid(2, 100)
    c = s.offer(3, 100)
    s.tape(session(100, a), fill(a, c, 50, 100))
    s.tick(20_000)
    s.tape(rolling(10_000), fbs(10_000), opened(18_000))
    s.change(1, a, 100, 100)
    d = s.offer(4, 100)
    s.tape(session(100, b), fill(b, d, 50, 100))


def change_of_nothing(s):
    """A change of the reserve, or of nothing, keeps the stamp but must be drawn."""
    a = s.bid(1, 100)
    s.bid(2, 100)
    s.change(1, a, 100, reserve=50)
    s.not_quiet()
    s.change(1, a, 100, reserve=50)
    s.not_quiet()
    c = s.offer(3, 100)
    s.tape(session(100, a), fill(a, c, 50, 100, 50, 0))


def shown_after_change(s):
    """A restock shows what the last change wrote."""
    a = s.bid(1, 100, 100, reserve=200)
    s.change(1, a, 100, 50, reserve=200)
    c = s.offer(3, 100)
    s.tape(session(100, a), fill(a, c, 50, 100, 50, 0))


def filled_for_life(s):
    """A change does not undo that a FaK order was filled in part."""
    a = s.bid(1, 100, 100, type=FAK)
    c = s.offer(3, 100)
    s.tape(session(100, a), fill(a, c, 50, 100))
    s.change(1, a, 99, 150)
    s.tick(10_000)
    s.tape(rolling(10_000), fbs(10_000), removal(a, 150, 2, 10_000))


def price_now(s):
    """An order re-priced to P has P. Writing P is no new price."""
    filled_whole(s)
    b = s.bid(4, 101)
    s.bid(6, 100)
    s.change(4, b, 100)
    e = s.offer(3, 100)
    s.tick(10_000)
    s.tape(rolling(10_000), fill(b, e, 50, 100))


def change_keeps_end(s):
    """A change leaves the end time alone."""
    a = s.bid(1, 100, end=5_000)
    s.change(1, a, 99, 100)
    s.tick(4_999)
    s.tick(5_000)
    s.tape(removal(a, 100, 3, 5_000))


# ---- the FBS Period ----------------------------------------------------------------------------


def ends_with_session(s):
    """An order that ends with the session still earns Priority 1; its removal frees it."""
    a = filled_in_part(s, end=10_000)
    s.tick(10_000)
    s.tape(rolling(10_000), fbs(10_000), removal(a, 50, 3, 10_000))
    s.bid(4, 100)
    e = s.bid(1, 100)
    sold_to(s, e)


def earlier_fill(s):
    """A fill of an earlier session earns nothing in this one."""
    a = s.bid(1, 100, 100)
    c = s.offer(3, 100)
    s.tape(session(100, a), fill(a, c, 50, 100))
    s.tick(20_000)
    s.tape(rolling(10_000), fbs(10_000), opened(18_000))
    z = s.bid(4, 100)
    s.change(1, a, 100, 100)
    b = s.bid(2, 101)
    d = s.offer(3, 101)
    s.tape(session(101, b), fill(b, d, 50, 101))
    s.tick(30_000)
    s.tape(rolling(30_000), fbs(30_000))
    sold_to(s, z)


def priority_1_any_price(s):
    """An order filled in part that stands away from P earns Priority 1 too."""
    a, b = s.bid(1, 100, 100), s.bid(2, 100)
    s.bid(4, 99)
    c = s.offer(3, 100)
    s.tape(session(100, a), fill(a, c, 50, 100))
    s.change(1, a, 99)
    d = s.offer(3, 100)
    s.tape(fill(b, d, 50, 100))
    to_fbs(s)
    sold_to(s, a, 99)


def fak_frees(s):
    """A FaK order earns Priority 1, is removed, and the next entry takes the privilege."""
    a = filled_in_part(s, type=FAK)
    s.tick(10_000)
    s.tape(rolling(10_000), fbs(10_000), removal(a, 50, 2, 10_000))
    s.bid(4, 100)
    e = s.bid(1, 100)
    sold_to(s, e)


def earliest_fill_carries(s):
    """Of two orders of a trader, the one filled first carries, not the lower number."""
    a = s.bid(1, 99, reserve=50)
    x = s.bid(1, 100, reserve=50)
    s.change(1, a, 100, reserve=50)
    b = s.bid(2, 100)
    c = s.offer(3, 100, 150)
    s.tape(session(100, x), fill(x, c, 50, 100), fill(a, c, 50, 100), fill(b, c, 50, 100))
    s.change(1, x, 100, 100)
    to_fbs(s)
    sold_to(s, x)


def earned_not_queued(s):
    """Two with Priority 1: ahead is who was filled first, not who stood in the queue first."""
    a = s.bid(1, 99, reserve=50)
    x = s.bid(4, 100, reserve=50)
    s.change(1, a, 100, reserve=50)
    b = s.bid(2, 100)
    c = s.offer(3, 100, 150)
    s.tape(session(100, x), fill(x, c, 50, 100), fill(a, c, 50, 100), fill(b, c, 50, 100))
    s.change(4, x, 100, 100)
    to_fbs(s)
    sold_to(s, x)


def priority_2_newest(s):
    """Two with Priority 2: ahead is who was filled last."""
    a, x, b = s.bid(1, 100), s.bid(4, 100), s.bid(2, 100)
    c = s.offer(3, 100, 150)
    s.tape(session(100, a), fill(a, c, 50, 100), fill(x, c, 50, 100), fill(b, c, 50, 100))
    e, f = s.bid(1, 100), s.bid(4, 100)
    to_fbs(s)
    sold_to(s, f)
    sold_to(s, e)


def first_completed(s):
    """Trader 1 had fills 1 and 3, trader 4 fill 2. The first one counts, so trader 4 is newer."""
    a, x, y, b = s.bid(1, 100), s.bid(4, 100), s.bid(1, 100), s.bid(2, 100)
    c = s.offer(3, 100, 200)
    s.tape(session(100, a), fill(a, c, 50, 100), fill(x, c, 50, 100), fill(y, c, 50, 100),
           fill(b, c, 50, 100))
    s.bid(1, 100)
    f = s.bid(4, 100)
    to_fbs(s)
    sold_to(s, f)


def no_fallback(s):
    """Whoever has had Priority 1 and lost it does not get Priority 2 for another order."""
    a, x, b = s.bid(1, 100), s.bid(1, 100, reserve=50), s.bid(2, 100)
    c = s.offer(3, 100, 150)
    s.tape(session(100, a), fill(a, c, 50, 100), fill(x, c, 50, 100), fill(b, c, 50, 100))
    to_fbs(s)
    s.change(1, x, 101)
    s.cancel(1, x)
    z = s.bid(4, 100)
    s.bid(1, 100)
    sold_to(s, z)


def entered_after(s):
    """An order that stood there before the fill does not carry Priority 2; a later one does."""
    s.bid(4, 99)
    s.bid(1, 99)
    filled_whole(s)
    e = s.bid(1, 99)
    s.bid(1, 99)
    to_fbs(s)
    sold_to(s, e, 99)


def gone_before_end(s):
    """An order that came and went in the session has not carried the privilege."""
    filled_whole(s)
    e = s.bid(1, 100)
    s.cancel(1, e)
    to_fbs(s)
    s.bid(4, 100)
    f = s.bid(1, 100)
    sold_to(s, f)


def better_entry_passes(s):
    """An entry better than P neither takes a free privilege nor forfeits it."""
    filled_whole(s)
    to_fbs(s)
    s.bid(4, 100)
    h = s.bid(1, 101)
    e = s.bid(1, 100)
    sold_to(s, h, 101)
    sold_to(s, e)


def change_takes_nothing(s):
    """An older order does not take a free privilege by a change."""
    w = s.bid(1, 99)
    filled_whole(s)
    to_fbs(s)
    z = s.bid(4, 98)
    s.change(1, w, 98)
    sold_to(s, z, 98)


def faki_takes(s):
    """A FaKI entry takes Priority 2 and is gone, and the privilege with it."""
    filled_whole(s)
    to_fbs(s)
    z = s.bid(4, 100)
    k = s.bid(1, 100, type=FAKI)
    s.tape(removal(k, 50, 1))
    s.bid(1, 100)
    sold_to(s, z)


def cancel_frees_1(s):
    """Cancelling the order that carries Priority 1 frees it for the next entry."""
    a = filled_in_part(s)
    to_fbs(s)
    s.cancel(1, a)
    s.bid(4, 100)
    e = s.bid(1, 100)
    sold_to(s, e)


def end_time_frees_1(s):
    """So does its removal at its end time."""
    a = filled_in_part(s, end=12_000)
    to_fbs(s)
    s.tick(12_000)
    s.tape(removal(a, 50, 3, 12_000))
    s.bid(4, 100)
    e = s.bid(1, 100)
    sold_to(s, e)


def cancel_ends_2(s):
    """Cancelling the order that carries Priority 2 ends it."""
    filled_whole(s)
    e = s.bid(1, 100)
    to_fbs(s)
    s.cancel(1, e)
    z = s.bid(4, 100)
    s.bid(1, 100)
    sold_to(s, z)


def filled_ends_1(s):
    """When the order that carries Priority 1 is filled whole, the privilege ends."""
    a = filled_in_part(s)
    to_fbs(s)
    sold_to(s, a)
    z = s.bid(4, 100)
    s.bid(1, 100)
    sold_to(s, z)


def freed_number(s):
    """A freed Priority 1 keeps its earned number, and its new order goes ahead of later ones."""
    a, x, b = s.bid(1, 100, reserve=50), s.bid(4, 100, reserve=50), s.bid(2, 100)
    c = s.offer(3, 100, 150)
    s.tape(session(100, a), fill(a, c, 50, 100), fill(x, c, 50, 100), fill(b, c, 50, 100))
    to_fbs(s)
    s.cancel(1, a)
    e = s.bid(1, 100)
    sold_to(s, e)


def better_ends(s):
    """Re-pricing better than P ends Priority 1: not suspended, and not free for another order."""
    a = filled_in_part(s)
    to_fbs(s)
    z = s.bid(4, 100)
    s.change(1, a, 101)
    s.change(1, a, 100)
    s.bid(1, 100)
    sold_to(s, z)


def worse_keeps(s):
    """Re-pricing worse than P keeps the class, although the stamp is new."""
    a = filled_in_part(s)
    to_fbs(s)
    s.bid(4, 99)
    s.change(1, a, 99)
    sold_to(s, a, 99)


def class_0_all(s):
    """Class 0 is for all bids of the Last Buyer, at any price, entered later too."""
    a = filled_in_part(s)
    to_fbs(s)
    s.change(1, a, 99)
    g, h = s.bid(2, 99), s.bid(2, 99)
    sold_to(s, g, 99)
    sold_to(s, h, 99)
    sold_to(s, a, 99)


def fbs_fill_earns_nothing(s):
    """A fill in the FBS Period makes nobody else Last Buyer, and earns no privilege."""
    filled_whole(s)
    to_fbs(s)
    z = s.bid(4, 100, 100)
    sold_to(s, z)
    y = s.bid(6, 100)
    s.change(4, z, 100, 100)
    g = s.bid(2, 100)
    sold_to(s, g)
    sold_to(s, y)
    sold_to(s, z)


def open_resets(s):
    """In Open the queue is by stamp again."""
    filled_whole(s)
    to_fbs(s)
    z = s.bid(4, 100)
    s.bid(2, 100)
    s.bid(1, 100)
    s.tick(18_000)
    s.tape(opened(18_000))
    f = s.offer(5, 100)
    s.tape(session(100, z), fill(z, f, 50, 100))


# ---- the draw ----------------------------------------------------------------------------------


def sizes_after_restock(s):
    """A fill tells sizes after any restock, a removal what was displayed at the removal."""
    a = s.bid(1, 100, reserve=50)
    c = s.offer(3, 100, 100, reserve=50, type=FAKI)
    s.tape(session(100, a), fill(a, c, 50, 100, 50, 50), fill(a, c, 50, 100, 0, 50),
           removal(c, 50, 1, 0))


def one_moment(s):
    """At one moment: the phase's end, what can trade then, and end times by order number."""
    filled_whole(s)
    b = s.bid(4, 100, end=10_000)
    e = s.offer(6, 100, end=10_000)
    g = s.bid(4, 98, end=10_000)
    f = s.bid(4, 99, 100, end=10_000)
    h = s.bid(4, 97, end=9_000)
    s.change(4, g, 96)
    s.tick(11_000)
    s.tape(removal(h, 50, 3, 9_000), rolling(10_000), fill(b, e, 50, 100),
           removal(g, 50, 3, 10_000), removal(f, 100, 3, 10_000))


def fak_in_session(s):
    """A FaK order without a fill stays. One with a fill trades on while the session lasts."""
    u = s.bid(4, 99, type=FAK)
    a = s.bid(1, 100, 150, type=FAK)
    c = s.offer(3, 100)
    s.tape(session(100, a), fill(a, c, 50, 100))
    d = s.offer(3, 100)
    s.tape(fill(a, d, 50, 100))
    s.tick(18_000)
    s.tape(rolling(10_000), fbs(10_000), removal(a, 50, 2, 10_000), opened(18_000))
    f = s.offer(5, 99)
    s.tape(session(99, u), fill(u, f, 50, 99))


def faki_in_session(s):
    """A FaKI order that may not trade now is removed at once, in a session too."""
    filled_whole(s)
    s.bid(1, 100)
    k = s.offer(4, 100, type=FAKI)
    s.tape(removal(k, 50, 1))
    m = s.bid(4, 97, type=FAKI)
    s.tape(removal(m, 50, 1))


def tick_to_present(s):
    """A tick may name the present time, and needs drawing; a quiet tape answers quiet."""
    s.tick(100)
    s.tick(100)
    s.not_quiet()
    s.tape()
    s.tape()
    s.tick(99, refused=8)


def resting_price(s):
    """Outside a session the price is that of the order that did not come in last."""
    filled_whole(s)
    to_fbs(s)
    x = s.bid(4, 97)
    y = s.offer(6, 103)
    s.change(4, x, 105)
    s.tape(fill(x, y, 50, 103))
    z = s.bid(4, 102)
    w = s.offer(6, 98)
    s.tape(fill(z, w, 50, 102))


# ---- refusals and messages ---------------------------------------------------------------------


def first_refusal(s):
    """Of several faults the first in the order of the checks is answered."""
    bad = 2_000_000
    s.bid(0, bad, 25, end=1, refused=9)
    s.bid(129, 100, refused=9)
    s.bid(1, bad, 25, refused=11)
    s.tick(10)
    s.bid(1, 100, 25, end=1, refused=12)
    own = s.offer(1, 103)
    s.bid(1, 103, end=1, refused=13)
    s.bid(1, 103, refused=15)
    s.change(0, bad, bad, 25, refused=9)
    s.change(2, own, bad, 25, refused=10)
    s.change(1, own, -bad, 25, refused=11)
    s.cancel(0, bad, refused=9)
    s.cancel(2, own, refused=10)
    a = s.bid(2, 100, 100)
    c = s.offer(3, 100)
    s.tape(session(100, a), fill(a, c, 50, 100))
    b = s.bid(1, 99)
    s.change(1, b, 103, 25, refused=12)
    s.change(1, b, 103, refused=14)
    s.change(1, own, 99, refused=14)
    s.cancel(1, b)
    s.not_quiet()
    s.expect_reply(s.answer("entry", trader=0, side=Side.BID, type=FAK, price=bad, displayed=1,
                            reserve=1, end=1), 7)
    s.expect_reply(s.answer("change", trader=0, order=0, price=bad, displayed=1, reserve=1), 7)
    s.expect_reply(s.answer("cancel", trader=0, order=0), 7)
    s.tick(9, refused=8)


def end_now(s):
    """An end time must be after the book's time; a tick need only not be before it."""
    s.tick(100)
    s.bid(1, 100, end=100, refused=13)
    a = s.bid(1, 100, end=101)
    s.tick(101)
    s.tape(removal(a, 50, 3, 101))
    s.tick(101)


def own_price(s):
    """Equal prices meet. A session counts the price that the order would get, else the one written."""
    s.offer(4, 101)
    s.bid(4, 101, refused=15)
    b = s.bid(4, 98)
    s.offer(4, 98, refused=15)
    s.change(4, b, 101, refused=15)
    filled_whole(s)
    x = s.bid(4, 103)
    s.offer(4, 99, refused=15)
    s.offer(4, 95, refused=15)
    s.cancel(4, x)
    to_fbs(s)
    s.bid(4, 103, refused=15)
    s.bid(4, 100)


def reply_number(s):
    """Only an accepted entry is answered with an order number."""
    a = s.bid(1, 100)
    s.change(1, a, 99)
    s.tick(5)
    s.cancel(1, a)
    s.cancel(1, a, refused=10)
    s.bid(1, 100, 25, refused=12)


def negative_prices(s):
    """Prices are signed wherever they stand."""
    a = s.bid(1, -7)
    s.change(1, a, -3)
    s.bid(2, -4)
    c = s.offer(3, -1_000_000, 100)
    s.tape(session(-3, a), fill(a, c, 50, -3))
    s.bid(6, 1_000_000)
    d = s.bid(1, -3)
    s.tape(fill(d, c, 50, -3))


def ends_inside(s):
    """The input ends inside a message: one more reply, with refusal 2."""
    s.bid(1, 100)
    s.raw("00 0A 01 04 00 00 00")


def malformed_draw(s):
    """A draw that cannot be read gets a reply, and nothing after it is read."""
    s.bid(1, 100)
    s.raw("00 03 01 05 00" "00 02 01 05")


STREAMS = (
    owner_early, owner_without_trigger, passive_owner_away, prior_restock, prior_larger,
    prior_smaller, prior_return, better_in_fbs, rolling_end, no_session_in_fbs,
    restock_when_used_up, larger_than_now, change_of_nothing, shown_after_change, filled_for_life,
    price_now, change_keeps_end,
    ends_with_session, earlier_fill, priority_1_any_price, fak_frees, earliest_fill_carries,
    earned_not_queued, priority_2_newest, first_completed, no_fallback, entered_after,
    gone_before_end, better_entry_passes, change_takes_nothing, faki_takes, cancel_frees_1,
    end_time_frees_1, cancel_ends_2, filled_ends_1, freed_number, better_ends, worse_keeps,
    class_0_all, fbs_fill_earns_nothing, open_resets,
    sizes_after_restock, one_moment, fak_in_session, faki_in_session, tick_to_present,
    resting_price,
    first_refusal, end_now, own_price, reply_number, negative_prices, ends_inside, malformed_draw,
)


def name_of(play):
    return play.__name__.replace("_", "-")


def stream_of(play):
    """The bytes of one stream, played on a new book."""
    stream = Stream()
    play(stream)
    if not stream.broken:
        stream.rest()
    return bytes(stream.sent)


def streams():
    """(name, bytes) of every stream."""
    return [(name_of(play), stream_of(play)) for play in STREAMS]


def all_in_one():
    """All streams one after the other on one book; the first that ends the program comes last."""
    stream = Stream()
    for play in sorted(STREAMS, key=lambda play: play is ends_inside):
        if play is not malformed_draw:
            play(stream)
        if not stream.broken:
            stream.clear()
    return bytes(stream.sent)


def main(arguments):
    if len(arguments) != 1:
        sys.exit(__doc__)
    folder = pathlib.Path(arguments[0])
    folder.mkdir(parents=True, exist_ok=True)
    for name, sent in streams() + [("all", all_in_one())]:
        (folder / f"{name}.in").write_bytes(sent)
        (folder / f"{name}.out").write_bytes(venue.run(sent))
    print(f"{len(STREAMS) + 1} streams written")


if __name__ == "__main__":
    main(sys.argv[1:])
