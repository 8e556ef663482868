"""The rules of the book, as plain and slow Python.

Written from docs/RULES.md alone, to compare the real book with. Nothing is kept that can be
worked out again: queues are sorted whenever they are asked for.
"""

from dataclasses import dataclass, field
from enum import Enum, IntEnum

MAX_SIZE = 1_000_000
MAX_PRICE = 1_000_000
MAX_TIME = 10**12
MAX_PERIOD = 60_000
MAX_TRADER = 128
MAX_LIVE = 128
MAX_WRITES = 1_000_000      # accepted entries and changes, together
SUMMARY_ORDERS = 8

# (first tenor, last tenor, lot)
LOTS = (
    (1, 2, 250),
    (3, 3, 150),
    (4, 5, 100),
    (6, 7, 75),
    (8, 12, 50),
    (13, 30, 25),
    (40, 40, 10),
)


class Side(IntEnum):
    BID = 0
    OFFER = 1

    @property
    def other(self):
        return Side(1 - self)

    def better(self, price, than):
        """Higher is better for a bid, lower for an offer."""
        return price > than if self is Side.BID else price < than

    def meets(self, price, opposite):
        """Would an order of this side at `price` meet one of the other side at `opposite`?"""
        return price >= opposite if self is Side.BID else price <= opposite


class OrderType(IntEnum):
    FAS = 0
    FAK = 1
    FAKI = 2


class Phase(Enum):
    OPEN = "Open"
    TIMED = "Timed"
    ROLLING = "Rolling"
    FBS = "FBS"


class Cause(IntEnum):
    """Why an order was removed."""
    FAKI = 1
    FAK = 2
    END_TIME = 3


class Gone(Enum):
    """How an order leaves the book."""
    FILLED_WHOLE = 0
    CANCELLED = 1
    REMOVED = 2


class Refused(Exception):
    """A call turned down. `byte` is there for message refusals only."""

    def __init__(self, number, byte=None):
        super().__init__(f"refused {number}" + ("" if byte is None else f" at byte {byte}"))
        self.number = number
        self.byte = byte

    @property
    def layer(self):
        if self.number == 1:
            return "settings"
        if self.number <= 6:
            return "message"
        if self.number <= 17:
            return "book"
        return "line" if self.number == 18 else "writer"


class Settings:
    def __init__(self, tenor=10, timed=10_000, rolling=10_000, fbs=8_000):
        lots = [lot for first, last, lot in LOTS if first <= tenor <= last]
        if not lots or not all(1 <= period <= MAX_PERIOD for period in (timed, rolling, fbs)):
            raise Refused(1)
        self.tenor = tenor
        self.lot = lots[0]
        self.timed = timed          # T
        self.rolling = rolling      # R
        self.fbs = fbs              # F


# ---- records: what a draw answers ---------------------------------------------------------


@dataclass(frozen=True)
class QuietRecord:
    time: int


@dataclass(frozen=True)
class FillRecord:
    time: int
    price: int
    size: int
    bid: int
    bid_displayed: int
    offer: int
    offer_displayed: int


@dataclass(frozen=True)
class SessionRecord:
    time: int
    price: int
    passive: int


@dataclass(frozen=True)
class RollingRecord:
    time: int


@dataclass(frozen=True)
class FbsRecord:
    time: int


@dataclass(frozen=True)
class OpenRecord:
    time: int


@dataclass(frozen=True)
class RemovalRecord:
    time: int
    order: int
    displayed: int
    cause: Cause


# ---- what the book remembers --------------------------------------------------------------


@dataclass
class Order:
    number: int
    trader: int
    side: Side
    type: OrderType
    price: int
    displayed: int
    reserve: int
    shown: int
    end: int                        # 0 for none
    stamp: int
    fills_before: int               # the book's fills when the order was entered
    filled_in_part: bool = False
    first_session_fill: int = 0     # number of its first fill in the last session, or 0


@dataclass
class Privilege:
    """Priority 1 or 2 of one trader on one side."""
    priority: int
    earned: int
    carrier: int = 0                # number of the order that carries it, 0 if it is free


@dataclass
class Session:
    """A session and the FBS Period behind it."""
    price: int                      # the Work-Up Price P
    passive_side: Side
    passive_owner: int
    trigger_owner: int
    prior: set                      # numbers of the prior orders
    aggressive_owner: int = 0       # 0 for none
    was_quiet: bool = False         # has answered a quiet since it began
    last_fill_time: int = 0
    last_trader: dict = field(default_factory=dict)       # by side, of the session's last fill
    completed: dict = field(default_factory=dict)         # (trader, side): first completing fill
    privileges: dict = field(default_factory=dict)        # (trader, side): Privilege


class Book:
    def __init__(self, settings=None, rooms=(128, 128, 128)):
        self.settings = settings or Settings()
        self.rooms = tuple(rooms)           # of the bid line, the offer line and the end line
        self.orders = {}                    # live orders by number, rising
        self.time = 0
        self.wished = 0
        self.quiet = True
        self.phase = Phase.OPEN
        self.phase_began = 0
        self.session = None                 # there in Timed, Rolling and FBS
        self.incoming = 0
        self.numbers = 0                    # order numbers given out
        self.stamps = 0
        self.fills = 0
        self.writes = 0

    # ---- the calls -------------------------------------------------------------------------

    def entry(self, trader, side, type, price, displayed, reserve, end):
        side, type = Side(side), OrderType(type)
        self.check_quiet()
        self.check_trader(trader)
        self.check_price(price)
        self.check_sizes(displayed, reserve)
        if end != 0 and (end <= self.time or end > MAX_TIME):
            raise Refused(13)
        if self.in_session() and side.better(price, self.session.price):
            price = self.session.price
        self.check_own_orders(trader, side, price)
        self.check_writes()
        if len(self.orders) >= MAX_LIVE:
            raise Refused(17)
        self.check_rooms(side, end)

        self.numbers += 1
        order = Order(self.numbers, trader, side, type, price, displayed, reserve,
                      shown=displayed, end=end, stamp=0, fills_before=self.fills)
        self.orders[order.number] = order
        self.take_stamp(order)
        self.note_write(order)
        self.take_privilege(order)
        return order.number

    def change(self, trader, number, price, displayed, reserve):
        self.check_quiet()
        self.check_trader(trader)
        order = self.order_of(trader, number)
        self.check_price(price)
        self.check_sizes(displayed, reserve)
        if self.in_session() and order.side.better(price, self.session.price):
            raise Refused(14)
        self.check_own_orders(trader, order.side, price)
        self.check_writes()

        new_stamp = self.loses_place(order, price, displayed)
        self.rewrite(order, price, displayed, reserve)
        if new_stamp:
            self.take_stamp(order)
        self.note_write(order)
        self.end_privilege_if_better(order)

    def cancel(self, trader, number):
        self.check_quiet()
        self.check_trader(trader)
        order = self.order_of(trader, number)
        self.leave(order, Gone.CANCELLED)
        self.wish(self.time)

    def tick(self, time):
        self.check_quiet()
        if time < self.time or time > MAX_TIME:
            raise Refused(8)
        self.wish(time)

    def draw(self):
        """One step, and the record that tells it: the first of the five that applies."""
        record = (self.begin_session() or self.fill_pair() or self.remove_spent()
                  or self.reach_moment() or self.come_to_rest())
        self.settle_aggressive_owner(record)
        return record

    def summary(self, side):
        """Best price and displayed total of the first eight orders there, or None."""
        queue = self.queue(side)
        if not queue:
            return None
        best = queue[0].price
        first = [order for order in queue if order.price == best][:SUMMARY_ORDERS]
        return best, sum(order.displayed for order in first)

    # ---- checks ----------------------------------------------------------------------------

    def check_quiet(self):
        if not self.quiet:
            raise Refused(7)

    def check_trader(self, trader):
        if not 1 <= trader <= MAX_TRADER:
            raise Refused(9)

    def order_of(self, trader, number):
        order = self.orders.get(number)
        if order is None or order.trader != trader:
            raise Refused(10)
        return order

    def check_price(self, price):
        if not -MAX_PRICE <= price <= MAX_PRICE:
            raise Refused(11)

    def check_sizes(self, displayed, reserve):
        for size in (displayed, reserve):
            if size < 0 or size > MAX_SIZE or size % self.settings.lot != 0:
                raise Refused(12)
        if displayed == 0:
            raise Refused(12)

    def check_own_orders(self, trader, side, price):
        for order in self.orders.values():
            if order.trader == trader and order.side is side.other and side.meets(price, order.price):
                raise Refused(15)

    def check_writes(self):
        if self.writes >= MAX_WRITES:
            raise Refused(16)

    def check_rooms(self, side, end):
        if len(self.queue(side)) >= self.rooms[side]:
            raise Refused(18)
        ends = [order for order in self.orders.values() if order.end != 0]
        if end != 0 and len(ends) >= self.rooms[2]:
            raise Refused(18)

    # ---- orders ----------------------------------------------------------------------------

    def wish(self, time):
        self.wished = time
        self.quiet = False

    def note_write(self, order):
        """What every accepted entry and change does."""
        self.writes += 1
        self.incoming = order.number
        self.wish(self.time)

    def take_stamp(self, order):
        self.stamps += 1
        order.stamp = self.stamps
        if self.session:
            self.session.prior.discard(order.number)

    def loses_place(self, order, price, displayed):
        return price != order.price or displayed > order.displayed

    def rewrite(self, order, price, displayed, reserve):
        order.price = price
        order.displayed = order.shown = displayed
        order.reserve = reserve

    def take_fill(self, order, size):
        """The order gives up `size`, and is restocked or leaves if nothing is displayed then."""
        order.displayed -= size
        order.filled_in_part = True
        if self.in_session() and order.first_session_fill == 0:
            order.first_session_fill = self.fills
        self.restock(order)
        if order.displayed == 0:
            if self.in_session():
                self.session.completed.setdefault((order.trader, order.side), self.fills)
            self.leave(order, Gone.FILLED_WHOLE)

    def restock(self, order):
        if order.displayed == 0:
            move = min(order.shown, order.reserve)
            order.displayed += move
            order.reserve -= move
            if move > 0:
                self.take_stamp(order)

    def leave(self, order, gone):
        del self.orders[order.number]
        if self.session:
            self.session.prior.discard(order.number)
            self.release_privilege(order, gone)

    # ---- rank ------------------------------------------------------------------------------

    def queue(self, side):
        """The live orders of a side, first by rank first."""
        return sorted((order for order in self.orders.values() if order.side is side), key=self.rank)

    def rank(self, order):
        """Sorts by better price, class, place within the class, number: the lowest is ahead."""
        price = -order.price if order.side is Side.BID else order.price
        priority = self.class_of(order)
        return price, priority, self.place_in_class(order, priority), order.number

    def place_in_class(self, order, priority):
        if priority == 1:
            return self.privilege_of(order).earned
        if priority == 2:
            return -self.privilege_of(order).earned
        return order.stamp

    def class_of(self, order):
        if self.phase is not Phase.FBS:
            return 3
        if self.session.last_trader[order.side] == order.trader:
            return 0
        privilege = self.privilege_of(order)
        return privilege.priority if privilege else 3

    def prices_meet(self):
        bids, offers = self.queue(Side.BID), self.queue(Side.OFFER)
        return bool(bids and offers) and bids[0].price >= offers[0].price

    # ---- the session, and who may trade ----------------------------------------------------

    def in_session(self):
        return self.phase in (Phase.TIMED, Phase.ROLLING)

    def begin_session(self):
        if self.phase is not Phase.OPEN or not self.prices_meet():
            return None
        trigger = self.orders[self.incoming]
        passive = self.queue(trigger.side.other)[0]
        trigger.price = passive.price
        prior = {order.number for order in self.queue(passive.side) if order.price == passive.price}
        self.session = Session(passive.price, passive.side, passive.trader, trigger.trader, prior)
        for order in self.orders.values():
            order.first_session_fill = 0
        self.enter(Phase.TIMED)
        return SessionRecord(self.time, passive.price, passive.number)

    def settle_aggressive_owner(self, record):
        """After a draw: he is found with the draw that leaves no prior order, if that is before
        the session's first quiet."""
        if self.phase is Phase.TIMED and not self.session.was_quiet:
            if not self.session.prior:
                self.session.aggressive_owner = self.session.trigger_owner
            if isinstance(record, QuietRecord):
                self.session.was_quiet = True

    def entitled(self, side):
        """The entitled orders of a side, first by rank first."""
        queue = self.queue(side)
        if self.phase is Phase.TIMED:
            return self.entitled_in_timed(side, queue)
        if self.phase is Phase.ROLLING:
            return [order for order in queue if order.price == self.session.price]
        if self.phase is Phase.FBS and self.prices_meet():
            return [order for order in queue if order.price == queue[0].price]
        return []

    def entitled_in_timed(self, side, queue):
        session = self.session
        at_price = [order for order in queue if order.price == session.price]
        if side is session.passive_side:
            prior = [order for order in queue if order.number in session.prior]
            return prior or [order for order in at_price if order.trader == session.passive_owner]
        if session.aggressive_owner:
            return [order for order in at_price if order.trader == session.aggressive_owner]
        return at_price

    # ---- fills -----------------------------------------------------------------------------

    def fill_pair(self):
        bids, offers = self.entitled(Side.BID), self.entitled(Side.OFFER)
        if not bids or not offers:
            return None
        bid, offer = bids[0], offers[0]
        size = min(bid.displayed, offer.displayed)
        price = self.fill_price(bid, offer)
        self.fills += 1
        if self.in_session():
            self.session.last_fill_time = self.time
            self.session.last_trader = {Side.BID: bid.trader, Side.OFFER: offer.trader}
        self.take_fill(bid, size)
        self.take_fill(offer, size)
        return FillRecord(self.time, price, size, bid.number, bid.displayed,
                          offer.number, offer.displayed)

    def fill_price(self, bid, offer):
        if self.in_session():
            return self.session.price
        return offer.price if bid.number == self.incoming else bid.price

    # ---- removals, time, rest --------------------------------------------------------------

    def remove_spent(self):
        for number in sorted(self.orders):
            cause = self.spent(self.orders[number])
            if cause:
                return self.remove(self.orders[number], cause)
        return None

    def spent(self, order):
        if order.type is OrderType.FAKI:
            return Cause.FAKI
        if order.type is OrderType.FAK and order.filled_in_part and not self.in_session():
            return Cause.FAK
        return None

    def remove(self, order, cause):
        self.leave(order, Gone.REMOVED)
        return RemovalRecord(self.time, order.number, order.displayed, cause)

    def phase_end(self):
        """The moment at which the phase ends, or None in Open."""
        if self.phase is Phase.TIMED:
            return self.phase_began + self.settings.timed
        if self.phase is Phase.ROLLING:
            return max(self.phase_began, self.session.last_fill_time + self.settings.rolling)
        if self.phase is Phase.FBS:
            return self.phase_began + self.settings.fbs
        return None

    def moments(self):
        """(time, order number), with number 0 for the phase's end, which so comes first."""
        ends = [(order.end, order.number) for order in self.orders.values() if order.end != 0]
        return ends if self.phase_end() is None else ends + [(self.phase_end(), 0)]

    def reach_moment(self):
        due = [moment for moment in self.moments() if moment[0] <= self.wished]
        if not due:
            return None
        self.time, number = min(due)
        if number != 0:
            return self.remove(self.orders[number], Cause.END_TIME)
        return self.end_phase()

    def enter(self, phase):
        self.phase = phase
        self.phase_began = self.time

    def end_phase(self):
        if self.phase is Phase.TIMED:
            self.enter(Phase.ROLLING)
            return RollingRecord(self.time)
        if self.phase is Phase.ROLLING:
            self.enter(Phase.FBS)
            self.settle_privileges()
            return FbsRecord(self.time)
        self.enter(Phase.OPEN)
        self.session = None
        return OpenRecord(self.time)

    def come_to_rest(self):
        self.time = self.wished
        self.quiet = True
        return QuietRecord(self.time)

    # ---- privileges ------------------------------------------------------------------------

    def settle_privileges(self):
        """At the session's end, for each trader and side."""
        for trader in range(1, MAX_TRADER + 1):
            for side in Side:
                privilege = self.priority_1(trader, side) or self.priority_2(trader, side)
                if privilege:
                    self.session.privileges[trader, side] = privilege

    def orders_of(self, trader, side):
        return [order for order in self.orders.values()
                if order.trader == trader and order.side is side]

    def priority_1(self, trader, side):
        filled = [order for order in self.orders_of(trader, side) if order.first_session_fill]
        if not filled:
            return None
        carrier = min(filled, key=lambda order: order.first_session_fill)
        return Privilege(1, carrier.first_session_fill, carrier.number)

    def priority_2(self, trader, side):
        earned = self.session.completed.get((trader, side))
        if earned is None:
            return None
        later = [order.number for order in self.orders_of(trader, side)
                 if order.fills_before >= earned]
        return Privilege(2, earned, min(later, default=0))

    def privilege_of(self, order):
        """The privilege that this order carries, or None."""
        privilege = self.session.privileges.get((order.trader, order.side))
        return privilege if privilege and privilege.carrier == order.number else None

    def take_privilege(self, order):
        """An entry in the FBS Period takes a free privilege of its trader."""
        if self.phase is Phase.FBS and not order.side.better(order.price, self.session.price):
            privilege = self.session.privileges.get((order.trader, order.side))
            if privilege and privilege.carrier == 0:
                privilege.carrier = order.number

    def end_privilege_if_better(self, order):
        """A change to a price better than P ends the privilege that the order carries."""
        if self.phase is Phase.FBS and order.side.better(order.price, self.session.price):
            if self.privilege_of(order):
                del self.session.privileges[order.trader, order.side]

    def release_privilege(self, order, gone):
        """The order leaves: Priority 1 is free again unless the order was filled whole."""
        privilege = self.privilege_of(order)
        if privilege and privilege.priority == 1 and gone is not Gone.FILLED_WHOLE:
            privilege.carrier = 0
        elif privilege:
            del self.session.privileges[order.trader, order.side]
