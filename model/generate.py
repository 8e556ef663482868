"""Random streams of calls that go deep into the rules.

    python3 model/generate.py SEED COUNT [TENOR T R F [BID_ROOM OFFER_ROOM END_ROOM]] >calls

writes COUNT messages. The generator drives a book while it makes the stream, so it can aim: at few
prices and traders, at phase ends and end times and the moments beside them, at orders that carry a
privilege. The same arguments always give the same bytes. Some streams end in bytes that the reader
refuses.
"""

import random
import sys

import messages
import venue
from book import MAX_PRICE, MAX_SIZE, MAX_TIME, Book, OrderType, Phase, Settings, Side

# Bytes after which the program stops, one of them at the end of some streams.
BROKEN_ENDS = (
    "00",
    "00 02 01",
    "00 00 01 05",
    "00 01 01 05",
    "00 0A 01 04 00 00",
    "FF FF 01 05",
    "00 02 00 05",
    "00 02 02 09",
    "00 02 01 00",
    "00 02 01 06",
    "00 02 01 20",
    "00 03 01 05 00",
    "00 06 01 03 01 00 00 00",
    "00 0B 01 04 00 00 00 00 00 00 00 00 00",
    "00 18 01 01 01 00 00 00 00 00 64 00 00 00 32 00 00 00 64 00 00 00 00 00 00 00",
    "00 2A 01 01 01 00 00 00 00 00 64 00 00 00 32 00 00 00 64 00 00 00 00 00 00 00 00" + 17 * " 41",
    "00 19 01 01 01 02 03 00 00 00 64 00 00 00 32 00 00 00 64 00 00 00 00 00 00 00 00",
    "00 19 01 01 01 01 03 00 00 00 64 00 00 00 32 00 00 00 64 00 00 00 00 00 00 00 00",
)
DRAW = bytes.fromhex("00 02 01 05")


class Generator:
    """Makes calls on a book and takes them down."""

    def __init__(self, seed, book):
        self.random = random.Random(seed)
        self.book = book
        self.lot = book.settings.lot
        self.middle = self.random.choice((0, 100, 100, -3, MAX_PRICE - 1, 1 - MAX_PRICE))
        self.spread = self.random.choice((1, 2, 3))
        self.traders = self.random.choice((4, 6, 9))
        self.crowd = self.random.random() < 0.08            # fills the book up to its limits
        self.hasty = self.random.choice((0.0, 0.02, 0.1))   # calls before the tape is quiet
        self.wrong = self.random.choice((0.0, 0.03, 0.12))  # calls with something wrong in them
        self.plan_session()

    def chance(self, share):
        return self.random.random() < share

    def next(self):
        """The next call."""
        if not self.book.quiet and not self.chance(self.hasty):
            return {"kind": "draw"}
        if self.crowd and len(self.book.orders) < 128 and self.chance(0.85):
            return self.resting_entry()
        message = self.lawful()
        return self.spoil(message) if self.chance(self.wrong) else message

    def lawful(self):
        """A call that is likely to be accepted, weighted by what the phase makes interesting."""
        weights = {
            Phase.OPEN: {"entry": 20, "towards_session": 50, "change": 8, "cancel": 3, "tick": 4},
            Phase.TIMED: {"entry": 44, "change": 24, "cancel": 5, "tick": 10},
            Phase.ROLLING: {"entry": 46, "change": 14, "cancel": 5, "tick": 16},
            Phase.FBS: {"entry": 32, "probe": 20, "change": 26, "cancel": 10, "tick": 3},
        }[self.book.phase]
        kind, = self.random.choices(list(weights) + ["draw"], list(weights.values()) + [1])
        if kind in ("change", "cancel") and not self.book.orders:
            kind = "entry"
        return getattr(self, kind)()

    # ---- calls -----------------------------------------------------------------------------

    def entry(self):
        side = self.random.choice(list(Side))
        price = self.price(side)
        return self.entry_of(self.trader(side, price), side, price, self.order_type())

    def plan_session(self):
        """The next session is to meet a queue of some orders at one price."""
        self.passive_side = self.random.choice(list(Side))
        price = self.middle + self.random.randint(-1, 1)
        self.passive_price = max(-MAX_PRICE, min(MAX_PRICE, price))
        self.passive_orders = self.random.randint(1, 6)

    def towards_session(self):
        """One more order for the queue, or the order that meets it."""
        side, price = self.passive_side, self.passive_price
        queue = [order for order in self.book.orders.values()
                 if order.side is side and order.price == price]
        if len(queue) < self.passive_orders:
            return self.entry_of(self.trader(side, price), side, price, self.order_type())
        trader = self.trader(side.other, price)
        message = self.entry_of(trader, side.other, price, self.order_type())
        total = sum(order.displayed for order in queue) + self.random.randint(-5, 3) * self.lot
        message["displayed"] = max(self.lot, min(MAX_SIZE // self.lot * self.lot, total))
        self.plan_session()
        return message

    def probe(self):
        """A small order that meets the best of the other side, so that ranks show."""
        side = self.random.choice(list(Side))
        queue = self.book.queue(side.other)
        if not queue:
            return self.entry()
        message = self.entry_of(self.trader(side, queue[0].price), side, queue[0].price,
                                self.order_type())
        message.update(displayed=self.lot, reserve=0)
        return message

    def entry_of(self, trader, side, price, type):
        reference = self.random.randbytes(self.random.choice((0, 0, 1, 7, 16)))
        return {"kind": "entry", "trader": trader, "side": side, "type": type, "price": price,
                "displayed": self.displayed(), "reserve": self.reserve(), "end": self.end(),
                "reference": reference}

    def resting_entry(self):
        """An order that meets nothing, of one of many traders."""
        side = self.random.choice(list(Side))
        away = self.random.randint(4, 40)
        price = self.middle - away if side is Side.BID else self.middle + away
        price = max(-MAX_PRICE, min(MAX_PRICE, price))
        return self.entry_of(self.random.randint(1, 128), side, price, OrderType.FAS)

    def change(self):
        order = self.order()
        price = order.price if self.chance(0.45) else self.price(order.side)
        if self.book.in_session() and not self.chance(0.05):
            price = self.worse(order.side, price, self.book.session.price)
        for own in self.book.orders_of(order.trader, order.side.other):
            if self.chance(0.95):
                beside = own.price - 1 if order.side is Side.BID else own.price + 1
                price = self.worse(order.side, price, beside)
        displayed = order.displayed if self.chance(0.35) else self.displayed()
        reserve = order.reserve if self.chance(0.5) else self.reserve()
        return {"kind": "change", "trader": order.trader, "order": order.number, "price": price,
                "displayed": displayed, "reserve": reserve}

    def worse(self, side, price, limit):
        """The price, but not better than the limit."""
        return limit if side.better(price, limit) else price

    def cancel(self):
        order = self.order()
        return {"kind": "cancel", "trader": order.trader, "order": order.number}

    def tick(self):
        return {"kind": "tick", "time": min(MAX_TIME, max(self.book.time, self.moment()))}

    def draw(self):
        return {"kind": "draw"}

    # ---- fields ----------------------------------------------------------------------------

    def trader(self, side, price):
        """Mostly one who would not meet an order of his own; in the FBS Period rather one who has
        a privilege there, above all a free one."""
        book, traders = self.book, range(1, self.traders + 1)
        if book.phase is Phase.FBS and self.chance(0.5):
            held = {trader: privilege for (trader, where), privilege in book.session.privileges.items()
                    if where is side}
            free = [trader for trader, privilege in held.items() if privilege.carrier == 0]
            traders = free or list(held) or traders
        if self.chance(0.95):
            traders = [trader for trader in traders
                       if not any(side.meets(price, order.price)
                                  for order in book.orders_of(trader, side.other))]
        return self.random.choice(list(traders) or range(1, 129))

    def order_type(self):
        return self.random.choices(list(OrderType), (70, 18, 12))[0]

    def price(self, side):
        """Near the middle, often at P or beside it, so that prices meet and orders queue."""
        if self.book.session and self.chance(0.65):
            price = self.book.session.price + self.random.choice((0, 0, 0, 0, 0, -1, 1))
        else:
            lean = 1 if side is Side.OFFER else -1
            price = self.middle + lean + self.random.randint(-self.spread, self.spread)
        return max(-MAX_PRICE, min(MAX_PRICE, price))

    def displayed(self):
        lots = self.random.choice((1, 1, 1, 2, 2, 3, 4))
        if self.chance(0.004):
            lots = MAX_SIZE // self.lot
        return lots * self.lot

    def reserve(self):
        lots = self.random.choice((0, 0, 0, 1, 1, 2, 3, 6))
        if self.chance(0.004):
            lots = MAX_SIZE // self.lot
        return lots * self.lot

    def end(self):
        if not self.chance(0.2):
            return 0
        return min(MAX_TIME, max(self.book.time + 1, self.moment()))

    def moment(self):
        """A time at, just before or just after something of interest."""
        book, settings = self.book, self.book.settings
        near = [time for time, _ in book.moments()]
        if book.phase is Phase.TIMED:
            near.append(book.phase_began + settings.timed)
            near.append(book.phase_began + settings.timed + settings.rolling)
        if book.session:
            near.append(book.session.last_fill_time + settings.rolling)
            near.append(book.session.last_fill_time + settings.rolling + settings.fbs)
        step = self.random.choice((0, 1, 7, 400, 3_000, settings.timed))
        far = settings.timed + settings.rolling + settings.fbs
        choice = self.random.random()
        if near and choice < 0.6:
            return self.random.choice(near) + self.random.choice((-1, 0, 0, 0, 1))
        return book.time + (step if choice < 0.95 else far)

    def order(self):
        """A live order: in a session rather one that is prior or has traded, in the FBS Period
        rather one that carries a privilege."""
        book, orders = self.book, list(self.book.orders.values())
        chosen = []
        if book.in_session():
            chosen = [order for order in orders
                      if order.number in book.session.prior or order.first_session_fill]
        elif book.phase is Phase.FBS:
            chosen = [order for order in orders if book.privilege_of(order)]
        return self.random.choice(chosen if chosen and self.chance(0.6) else orders)

    # ---- refusals --------------------------------------------------------------------------

    def spoil(self, message):
        """Puts something into the message that the book should refuse."""
        faults = {
            "entry": (self.bad_trader, self.bad_price, self.bad_size, self.bad_end, self.own_price),
            "change": (self.bad_trader, self.bad_order, self.bad_price, self.bad_size,
                       self.own_price, self.better_than_p),
            "cancel": (self.bad_trader, self.bad_order),
            "tick": (self.bad_tick,),
            "draw": (lambda message: None,),
        }[message["kind"]]
        for _ in range(self.random.choice((1, 1, 1, 2, 3))):
            self.random.choice(faults)(message)
        return message

    def bad_trader(self, message):
        message["trader"] = self.random.choice((0, 129, 255, self.random.randint(1, self.traders)))

    def bad_order(self, message):
        message["order"] = self.random.choice(
            (0, self.book.numbers, self.book.numbers + 1, 2**32 - 1,
             self.random.randint(1, self.book.numbers + 1)))

    def bad_price(self, message):
        message["price"] = self.random.choice(
            (MAX_PRICE + 1, -MAX_PRICE - 1, 2**31 - 1, -2**31, MAX_PRICE, -MAX_PRICE))

    def bad_size(self, message):
        size = self.random.choice((0, 1, self.lot - 1, self.lot // 2, MAX_SIZE + self.lot,
                                   2**32 - 1, self.lot * 2**20))
        message[self.random.choice(("displayed", "reserve"))] = size

    def bad_end(self, message):
        message["end"] = self.random.choice(
            (self.book.time, max(0, self.book.time - 1), MAX_TIME, MAX_TIME + 1, 2**64 - 1, 1))

    def bad_tick(self, message):
        message["time"] = self.random.choice(
            (max(0, self.book.time - 1), 0, MAX_TIME + 1, 2**64 - 1))

    def own_price(self, message):
        """At the price of an own order on the other side, or beside it."""
        side = message.get("side")
        if side is None:
            order = self.book.orders.get(message["order"])
            if order is None:
                return
            side = order.side
        own = [order.price for order in self.book.orders.values()
               if order.trader == message["trader"] and order.side is side.other]
        if own:
            message["price"] = self.random.choice(own) + self.random.choice((-1, 0, 0, 1))

    def better_than_p(self, message):
        order = self.book.orders.get(message["order"])
        if order and self.book.session:
            away = self.random.choice((1, 1, 2, 1_000))
            message["price"] = self.book.session.price + (away if order.side is Side.BID else -away)


def calls(seed, count, book):
    """COUNT calls, each made on the book; yields the call and the answer."""
    generator = Generator(seed, book)
    for _ in range(count):
        message = generator.next()
        yield message, venue.answer(book, message)


def stream(seed, count, book=None):
    """The bytes of a stream. Every fourth seed ends in bytes that the reader refuses."""
    sent = b"".join(messages.write(message)
                    for message, _ in calls(seed, count, book or Book()))
    if seed % 4 == 3:
        end = BROKEN_ENDS[seed // 4 % len(BROKEN_ENDS)]
        sent += bytes.fromhex(end) + (DRAW if seed % 8 == 3 else b"")
    return sent


def main(arguments):
    numbers = [int(word) for word in arguments]
    if len(numbers) not in (2, 6, 9):
        sys.exit(__doc__)
    settings = Settings(*(numbers[2:6] or venue.SETTINGS))
    book = Book(settings, numbers[6:] or venue.ROOMS)
    sys.stdout.buffer.write(stream(numbers[0], numbers[1], book))


if __name__ == "__main__":
    main(sys.argv[1:])
