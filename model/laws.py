"""Holds random runs to what the rules promise.

    python3 model/laws.py FIRST_SEED STREAMS COUNT [TENOR T R F [BID_ROOM OFFER_ROOM END_ROOM]]

An auditor watches each run. He sees the calls and the answers and nothing of the book's memory. Of
a reserve he only asks whether it is lawful. From this he works out by himself who was entitled and
who stood ahead, by other means than the model: he keeps a log and reads it again. So the laws of
docs/RULES.md are checked, and with them what follows from the rules: prices do not meet at quiet
(outside Timed), no order is better than P in a session, the trigger is alone at P, prior orders are
ahead, nobody trades with himself, the first refusal that applies is the one answered, refused calls
change nothing. The law on reserves is checked on pairs of runs.
"""

import random
import sys
from dataclasses import dataclass

import generate
import venue
from book import (MAX_LIVE, MAX_PRICE, MAX_SIZE, MAX_TIME, MAX_WRITES, Book, OrderType, Phase,
                  Settings, Side)

PHASES = {"session": Phase.TIMED, "rolling": Phase.ROLLING, "fbs": Phase.FBS, "open": Phase.OPEN}


def need(holds, what, *facts):
    if not holds:
        raise AssertionError(" ".join([what, *map(str, facts)]))


@dataclass
class Seen:
    """What the auditor knows of a live order. Places in the log stand for points in time."""
    number: int
    trader: int
    side: Side
    type: OrderType
    price: int
    displayed: int
    shown: int
    end: int
    stamped: int            # where in the log it last took a stamp
    filled: bool = False


class Auditor:
    def __init__(self, settings, rooms):
        self.settings, self.rooms = settings, rooms
        self.quiet = True
        self.log = []               # (message, answer)
        self.live = {}              # Seen, by number
        self.gone = {}              # Seen, by number, with the place in the log where it left
        self.fill_at = []           # places of the fills in the log
        self.phase = Phase.OPEN
        self.time = self.wished = 0
        self.began = 0              # time at which the phase began
        self.incoming = 0
        self.session_at = self.rest_at = self.fbs_at = None
        self.standing = {}          # the live orders when the FBS Period began

    def in_session(self):
        return self.phase in (Phase.TIMED, Phase.ROLLING)

    # ---- following the run -----------------------------------------------------------------

    def see(self, message, answer):
        """One call and its answer: first judged, then taken down."""
        kind = message["kind"]
        if kind == "draw":
            self.judge(answer)
            getattr(self, "see_" + answer["kind"])(answer)
            self.quiet = answer["kind"] == "quiet"
        else:
            wrong = [number for number, holds in self.faults(message) if holds]
            need(answer["refusal"] == min(wrong, default=0), "wrong refusal", message, answer, wrong)
            if answer["refusal"] == 0:
                getattr(self, "see_" + kind)(message, answer)
                self.quiet = False
        self.log.append((message, answer))

    def see_entry(self, message, answer):
        price = message["price"]
        if self.in_session() and message["side"].better(price, self.p):
            price = self.p
        self.live[answer["order"]] = Seen(
            answer["order"], message["trader"], message["side"], message["type"], price,
            message["displayed"], message["displayed"], message["end"], len(self.log))
        self.incoming, self.wished = answer["order"], self.time

    def see_change(self, message, answer):
        order = self.live[message["order"]]
        if message["price"] != order.price or message["displayed"] > order.displayed:
            order.stamped = len(self.log)
        order.price = message["price"]
        order.displayed = order.shown = message["displayed"]
        self.incoming, self.wished = order.number, self.time

    def see_cancel(self, message, answer):
        self.leave(message["order"])
        self.wished = self.time

    def see_tick(self, message, answer):
        self.wished = message["time"]

    def see_session(self, record):
        trigger, passive = self.live[self.incoming], self.live[record["passive"]]
        self.p, self.passive_side, self.passive_owner = record["price"], passive.side, passive.trader
        self.trigger_owner = trigger.trader
        trigger.price = self.p
        self.at_p = {order.number for order in self.live.values()
                     if order.side is passive.side and order.price == self.p}
        self.session_at, self.rest_at, self.owner = len(self.log), None, None
        self.enter(record)

    def see_fill(self, record):
        self.fill_at.append(len(self.log))
        for name in ("bid", "offer"):
            order, after = self.live[record[name]], record[name + "_displayed"]
            used_up = order.displayed == record["size"]
            order.filled = True
            order.displayed = after
            if used_up and after:
                order.stamped = len(self.log)
            if not after:
                self.leave(order.number)

    def see_removal(self, record):
        self.time = record["time"]
        self.leave(record["order"])

    def see_rolling(self, record):
        self.enter(record)

    def see_fbs(self, record):
        self.enter(record)
        self.fbs_at = len(self.log)
        self.standing = dict(self.live)

    def see_open(self, record):
        self.enter(record)

    def see_quiet(self, record):
        if self.phase is Phase.TIMED and self.rest_at is None:
            self.rest_at = len(self.log)
            self.owner = None if self.prior() else self.trigger_owner
        self.time = record["time"]

    def enter(self, record):
        self.phase, self.time, self.began = PHASES[record["kind"]], record["time"], record["time"]

    def leave(self, number):
        self.gone[number] = self.live.pop(number), len(self.log)

    # ---- what is wrong with a call ---------------------------------------------------------

    def faults(self, message):
        """Every refusal of the book, and whether it applies; not only the first."""
        kind = message["kind"]
        yield 7, not self.quiet
        if kind == "tick":
            yield 8, not self.time <= message["time"] <= MAX_TIME
            return
        yield 9, message["trader"] not in range(1, 129)
        if kind != "entry":
            order = self.live.get(message["order"])
            yield 10, order is None or order.trader != message["trader"]
        if kind == "cancel":
            return
        price, end = message["price"], message.get("end", 0)
        yield 11, abs(price) > MAX_PRICE
        yield 12, not all(size in range(0, MAX_SIZE + 1, self.settings.lot)
                          for size in (message["displayed"], message["reserve"]))
        yield 12, message["displayed"] == 0
        yield 13, end != 0 and not self.time < end <= MAX_TIME
        side = message["side"] if kind == "entry" else order and order.side
        if side is not None:
            if self.in_session() and side.better(price, self.p):
                yield 14, kind == "change"
                price = self.p
            yield 15, any(own.trader == message["trader"] and own.side is not side
                          and not side.better(own.price, price) for own in self.live.values())
        writes = sum(seen["kind"] in ("entry", "change") and answer["refusal"] == 0
                     for seen, answer in self.log)
        yield 16, writes >= MAX_WRITES
        if kind == "entry":
            yield 17, len(self.live) >= MAX_LIVE
            queue = [order for order in self.live.values() if order.side is side]
            ends = [order for order in self.live.values() if order.end]
            yield 18, len(queue) >= self.rooms[side] or end != 0 and len(ends) >= self.rooms[2]

    # ---- who is entitled, who is ahead -----------------------------------------------------

    def prior(self):
        """Live orders that stood at P when the session began and took no stamp since."""
        return {number for number in self.at_p & set(self.live)
                if self.live[number].stamped < self.session_at}

    def best(self, side):
        prices = [order.price for order in self.live.values() if order.side is side]
        return (max if side is Side.BID else min)(prices, default=None)

    def prices_meet(self):
        bid, offer = self.best(Side.BID), self.best(Side.OFFER)
        return bid is not None and offer is not None and bid >= offer

    def entitled(self, order):
        if self.phase is Phase.OPEN:
            return False
        if self.phase is Phase.FBS:
            return self.prices_meet() and order.price == self.best(order.side)
        if order.price != self.p:
            return False
        if self.phase is Phase.ROLLING:
            return True
        if order.side is self.passive_side:
            prior = self.prior()
            return order.number in prior if prior else order.trader == self.passive_owner
        # Before the first quiet the trigger alone is at P here, so it is all the same.
        return self.owner is None or order.trader == self.owner

    def ahead(self, a, b):
        """Of two different orders of one side."""
        if a.price != b.price:
            return a.side.better(a.price, b.price)
        class_a, class_b = self.class_of(a), self.class_of(b)
        if class_a[0] != class_b[0]:
            return class_a[0] < class_b[0]
        if class_a[0] in (0, 3) and a.stamped != b.stamped:
            return a.stamped < b.stamped
        if class_a[1] != class_b[1]:
            return class_a[1] < class_b[1] if class_a[0] == 1 else class_a[1] > class_b[1]
        return a.number < b.number

    def class_of(self, order):
        """(class, earned: the place of a fill in the log)"""
        if self.phase is not Phase.FBS:
            return 3, 0
        _, last = self.log[max(place for place in self.fill_at if place < self.fbs_at)]
        if self.known(last["bid" if order.side is Side.BID else "offer"]).trader == order.trader:
            return 0, 0
        priority, earned, carrier = self.privilege(order.trader, order.side)
        return (priority, earned) if carrier == order.number else (3, 0)

    def known(self, number):
        return self.live[number] if number in self.live else self.gone[number][0]

    def session_fills(self, number):
        """Places of the order's fills in the session before this FBS Period."""
        return [place for place in self.fill_at if self.session_at < place < self.fbs_at
                and number in (self.log[place][1]["bid"], self.log[place][1]["offer"])]

    def privilege(self, trader, side):
        """(priority, earned, carrier), by reading the log from the session on; carrier 0 if it is
        free, all 0 if there is none or it has ended."""
        def mine(order):
            return (order.trader, order.side) == (trader, side)

        filled = [(self.session_fills(number)[0], number)
                  for number, order in self.standing.items()
                  if mine(order) and self.session_fills(number)]
        whole = [place for order, place in self.gone.values()
                 if mine(order) and place in self.fill_at and self.session_at < place < self.fbs_at]
        if filled:
            priority, (earned, carrier) = 1, min(filled)
        elif whole:
            priority, earned = 2, min(whole)
            later = [number for number, order in self.standing.items()
                     if mine(order) and self.entered_at(number) > earned]
            carrier = min(later, default=0)
        else:
            return 0, 0, 0
        for place in range(self.fbs_at + 1, len(self.log)):
            message, answer = self.log[place]
            if carrier == 0:
                if self.takes(message, answer, trader, side):
                    carrier = answer["order"]
            elif self.ends(message, answer, carrier, side, place, priority):
                return 0, 0, 0
            elif self.goes(message, answer, carrier):
                carrier = 0
        return priority, earned, carrier

    def entered_at(self, number):
        return next(place for place, (message, answer) in enumerate(self.log)
                    if message["kind"] == "entry" and answer["order"] == number)

    def takes(self, message, answer, trader, side):
        return (message["kind"] == "entry" and answer["refusal"] == 0
                and (message["trader"], message["side"]) == (trader, side)
                and not side.better(message["price"], self.p))

    def goes(self, message, answer, carrier):
        """The carrier is cancelled or removed."""
        if message["kind"] == "cancel":
            return answer["refusal"] == 0 and message["order"] == carrier
        return answer["kind"] == "removal" and answer["order"] == carrier

    def ends(self, message, answer, carrier, side, place, priority):
        if message["kind"] == "change" and answer["refusal"] == 0 and message["order"] == carrier:
            return side.better(message["price"], self.p)
        if answer["kind"] == "fill":
            name = "bid" if side is Side.BID else "offer"
            return answer[name] == carrier and answer[name + "_displayed"] == 0
        return priority == 2 and self.goes(message, answer, carrier)

    # ---- the judgement of a draw -----------------------------------------------------------

    def judge(self, record):
        kind = record["kind"]
        pair = {side: [order for order in self.live.values()
                       if order.side is side and self.entitled(order)] for side in Side}
        can_fill = all(pair.values())
        spent = sorted(order.number for order in self.live.values() if self.spent(order))
        due = self.due()
        begins = self.phase is Phase.OPEN and self.prices_meet()
        if kind == "session":
            need(begins, "a session without prices that meet", record)
            self.judge_session(record)
        elif kind == "fill":
            need(can_fill and not begins, "a fill without a pair", record)
            self.judge_fill(record, pair)
        elif kind == "removal" and record["cause"] != 3:
            need(not begins and not can_fill, "something comes before", record)
            need([record["order"]] == spent[:1], "wrong removal", record)
            need(record["displayed"] == self.live[spent[0]].displayed, "wrong size", record)
        else:
            need(not begins and not can_fill and not spent, "something comes before", record)
            if kind == "quiet":
                need(not due and record["time"] == self.wished, "a feigned quiet", record)
                self.judge_rest()
            else:
                time, number = min(due, default=(None, 0))
                need(record["time"] == time, "not the earliest moment", record)
                need((number != 0) == (kind == "removal"), "not what is due", record)
                need(number == 0 or number == record["order"], "another order is due", record)
        need(record["time"] >= self.time, "time falls", record)

    def spent(self, order):
        fak = order.type is OrderType.FAK and order.filled and not self.in_session()
        return fak or order.type is OrderType.FAKI

    def due(self):
        moments = [(order.end, order.number) for order in self.live.values() if order.end]
        if self.phase is Phase.TIMED:
            moments.append((self.began + self.settings.timed, 0))
        if self.phase is Phase.ROLLING:
            last = self.log[self.fill_at[-1]][1]["time"]
            moments.append((max(self.began, last + self.settings.rolling), 0))
        if self.phase is Phase.FBS:
            moments.append((self.began + self.settings.fbs, 0))
        return [moment for moment in moments if moment[0] <= self.wished]

    def first(self, order, among):
        return all(order is other or self.ahead(order, other) for other in among)

    def judge_session(self, record):
        need(self.incoming in self.live, "the trigger is gone", record)
        trigger, passive = self.live[self.incoming], self.live[record["passive"]]
        side = [order for order in self.live.values() if order.side is passive.side]
        need(passive.side is trigger.side.other and self.first(passive, side), "wrong passive order")
        need(record["price"] == passive.price, "wrong P", record)
        alone = [order for order in self.live.values()
                 if order.side is trigger.side and not trigger.side.better(passive.price, order.price)]
        need(alone == [trigger], "the trigger is not alone", record)

    def judge_fill(self, record, pair):
        bid, offer = self.live[record["bid"]], self.live[record["offer"]]
        need(bid in pair[Side.BID] and self.first(bid, pair[Side.BID]), "the bid jumps", record)
        need(offer in pair[Side.OFFER] and self.first(offer, pair[Side.OFFER]), "the offer jumps",
             record)
        need(bid.trader != offer.trader, "a trader trades with himself", record)
        need(record["size"] == min(bid.displayed, offer.displayed), "wrong size", record)
        if self.in_session():
            need(record["price"] == self.p, "not at P", record)
        else:
            need(self.incoming in (bid.number, offer.number), "neither came in", record)
            resting = offer if bid.number == self.incoming else bid
            need(record["price"] == resting.price, "not at the resting price", record)
        for order, after in ((bid, record["bid_displayed"]), (offer, record["offer_displayed"])):
            left = order.displayed - record["size"]
            need(after == left if left else 0 <= after <= order.shown, "wrong size after", record)
            need(after % self.settings.lot == 0, "not in lots", record)

    def judge_rest(self):
        need(self.phase is Phase.TIMED or not self.prices_meet(), "prices meet at quiet")
        if self.in_session():
            need(not any(order.side.better(order.price, self.p) for order in self.live.values()),
                 "an order is better than P in a session")
        if self.phase is Phase.TIMED:
            prior = self.prior()
            others = [order for order in self.live.values()
                      if order.side is self.passive_side and order.number not in prior]
            need(all(self.ahead(self.live[number], order) for number in prior for order in others),
                 "a prior order is not ahead")


# ---- one run ---------------------------------------------------------------------------------


def lots(book):
    return sum(order.displayed + order.reserve for order in book.orders.values()) // book.settings.lot


def check_sizes(book):
    lot = book.settings.lot
    for order in book.orders.values():
        need(0 < order.displayed <= MAX_SIZE and order.displayed % lot == 0, "displayed", order)
        need(0 <= order.reserve <= MAX_SIZE and order.reserve % lot == 0, "reserve", order)
        need(order.displayed <= order.shown, "more displayed than shown", order)


def audit(seed, count, book):
    """One random run under all the laws but the one on reserves; answers its fills."""
    auditor, generator = Auditor(book.settings, book.rooms), generate.Generator(seed, book)
    bound, draws = 4, 0
    for _ in range(count):
        message = generator.next()
        before = None if message["kind"] == "draw" else repr(vars(book))
        answer = venue.answer(book, message)
        if message["kind"] == "draw":
            draws = 0 if answer["kind"] == "quiet" else draws + 1
            need(draws < bound, "no quiet after", draws, "draws")
        elif answer["refusal"] != 0:
            need(repr(vars(book)) == before, "a refused call changes the book", message)
        else:
            bound, draws = lots(book) + len(book.orders) + 4, 0
        auditor.see(message, answer)
        check_sizes(book)
        need({number: (order.price, order.displayed) for number, order in auditor.live.items()}
             == {number: (order.price, order.displayed) for number, order in book.orders.items()},
             "the book holds other orders than the tape says")
    return len(auditor.fill_at)


# ---- pairs of runs ---------------------------------------------------------------------------


def other_reserves(message, trader, chance, lot):
    """Two messages that differ at most in a positive reserve of this trader."""
    if message["kind"] not in ("entry", "change") or message["trader"] != trader:
        return message, message
    reserve = message["reserve"]
    if reserve == 0 or reserve % lot or reserve > MAX_SIZE:
        return message, message
    return tuple({**message, "reserve": lot * chance.randint(2, 60)} for _ in range(2))


def learned(book, message, answer, trader):
    """What the traders other than this one learn from a call."""
    public = message["kind"] in ("draw", "tick") or message["trader"] != trader
    return answer if public else None, book.summary(Side.BID), book.summary(Side.OFFER)


def reserves_of(book, numbers):
    return {number: book.orders[number].reserve for number in numbers if number in book.orders}


def compare(seed, count, make):
    """Two runs that differ in reserves of one trader; answers how many calls were compared, and
    how many restocks of orders with differing reserves were among them."""
    left, right = make(), make()
    generator, chance = generate.Generator(seed, left), random.Random(-seed - 1)
    trader, lot = chance.randint(1, 4), left.settings.lot
    differing, restocks = set(), 0
    for place in range(count):
        messages = other_reserves(generator.next(), trader, chance, lot)
        before = [reserves_of(book, differing) for book in (left, right)]
        answers = [venue.answer(book, message) for book, message in zip((left, right), messages)]
        for book, reserves in zip((left, right), before):
            if messages[0]["kind"] == "draw":
                now = reserves_of(book, differing)
                if any(now.get(number) == 0 < reserve for number, reserve in reserves.items()):
                    return place, restocks
                restocks += any(now.get(number, reserve) != reserve
                                for number, reserve in reserves.items())
        need(learned(left, messages[0], answers[0], trader)
             == learned(right, messages[1], answers[1], trader), "a reserve shows at call", place)
        if messages[0]["kind"] in ("entry", "change") and answers[0]["refusal"] == 0:
            number = answers[0]["order"] or messages[0]["order"]
            (differing.add if messages[0] != messages[1] else differing.discard)(number)
        differing &= set(left.orders)
    return count, restocks


def main(arguments):
    numbers = [int(word) for word in arguments]
    if len(numbers) not in (3, 7, 10):
        sys.exit(__doc__)

    def make():
        return Book(Settings(*(numbers[3:7] or venue.SETTINGS)), numbers[7:] or venue.ROOMS)

    first, streams, count = numbers[:3]
    seeds = range(first, first + streams)
    fills = sum(audit(seed, count, make()) for seed in seeds)
    print(f"{streams * count} calls audited, {fills} fills")
    pairs = [compare(seed, count, make) for seed in seeds]
    print(f"{sum(calls for calls, _ in pairs)} calls compared in pairs, "
          f"{sum(restocks for _, restocks in pairs)} restocks of differing reserves")


if __name__ == "__main__":
    main(sys.argv[1:])
