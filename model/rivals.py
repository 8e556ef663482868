"""Rival books: each settles one point of the rules in another way than docs/DECISIONS.md.

    python3 model/rivals.py STREAMS COUNT

makes STREAMS random streams of COUNT messages and prints how many of them catch each rival. That
shows how deep the random streams go. test_model.py holds the directed streams to the same test.
"""

import sys

import messages
import venue
from book import (Book, Cause, FillRecord, Gone, OrderType, Phase, Privilege, Refused, Side)


# ---- the session and its owners ----------------------------------------------------------------


class OwnerAtAnyTime(Book):
    """The Aggressive Owner is found whenever the last prior order goes."""

    def settle_aggressive_owner(self, record):
        if self.phase is Phase.TIMED and not self.session.prior:
            self.session.aggressive_owner = self.session.trigger_owner


class OwnerGoesWithTrigger(Book):
    """The Aggressive Owner is owner only while the trigger is live."""
    trigger = 0

    def begin_session(self):
        record = super().begin_session()
        if record:
            self.trigger = self.incoming
        return record

    def entitled_in_timed(self, side, queue):
        if self.trigger not in self.orders:
            self.session.aggressive_owner = 0
        return super().entitled_in_timed(side, queue)


class PassiveSideOpenToAll(Book):
    """Without orders of the Passive Owner, all at P may trade on the passive side."""

    def entitled_in_timed(self, side, queue):
        found = super().entitled_in_timed(side, queue)
        if side is self.session.passive_side and not found:
            return [order for order in queue if order.price == self.session.price]
        return found


class RestockStaysPrior(Book):
    def restock(self, order):
        prior = self.session and order.number in self.session.prior
        super().restock(order)
        if prior and order.displayed:
            self.session.prior.add(order.number)


class LargerStaysPrior(Book):
    def change(self, trader, number, price, displayed, reserve):
        prior = self.session and number in self.session.prior
        super().change(trader, number, price, displayed, reserve)
        if prior and price == self.session.price:
            self.session.prior.add(number)


class EveryChangeEndsPrior(Book):
    def change(self, trader, number, price, displayed, reserve):
        super().change(trader, number, price, displayed, reserve)
        if self.session:
            self.session.prior.discard(number)


class PriorComesBack(Book):
    """An order that was prior is so again when it returns to P."""
    were_prior = frozenset()

    def begin_session(self):
        record = super().begin_session()
        if record:
            self.were_prior = set(self.session.prior)
        return record

    def change(self, trader, number, price, displayed, reserve):
        moved = number in self.orders and self.orders[number].price != price
        super().change(trader, number, price, displayed, reserve)
        if moved and self.session and number in self.were_prior and price == self.session.price:
            self.session.prior.add(number)


class RepricesInFbs(Book):
    def entry(self, trader, side, type, price, displayed, reserve, end):
        if self.phase is Phase.FBS and Side(side).better(price, self.session.price):
            self.check_price(price)
            price = self.session.price
        return super().entry(trader, side, type, price, displayed, reserve, end)


class RefusesBetterInFbs(Book):
    def check_own_orders(self, trader, side, price):
        if self.phase is Phase.FBS and side.better(price, self.session.price):
            raise Refused(14)
        super().check_own_orders(trader, side, price)


class RollingGetsFullPeriod(Book):
    """Rolling lasts R from its beginning, and R from each fill in it."""

    def phase_end(self):
        end = super().phase_end()
        if self.phase is Phase.ROLLING:
            return max(end, self.phase_began + self.settings.rolling)
        return end


class RollingForgetsTimed(Book):
    """Only fills in Rolling put its end off."""

    def phase_end(self):
        if self.phase is Phase.ROLLING and self.session.last_fill_time < self.phase_began:
            return self.phase_began
        return super().phase_end()


class FbsFillBeginsSession(Book):
    def begin_session(self):
        if self.phase is Phase.FBS and self.prices_meet():
            self.phase, self.session = Phase.OPEN, None
        return super().begin_session()


# ---- sizes, stamps and changes -----------------------------------------------------------------


class RestocksAfterEachFill(Book):
    def restock(self, order):
        move = min(order.shown - order.displayed, order.reserve)
        if move > 0:
            order.displayed += move
            order.reserve -= move
            self.take_stamp(order)


class LargerThanShown(Book):
    def loses_place(self, order, price, displayed):
        return price != order.price or displayed > order.shown


class EveryChangeTakesStamp(Book):
    def loses_place(self, order, price, displayed):
        return True


class ChangeOfNothingIsQuiet(Book):
    def change(self, trader, number, price, displayed, reserve):
        order = self.orders.get(number)
        same = order and (order.price, order.displayed, order.reserve) == (price, displayed, reserve)
        super().change(trader, number, price, displayed, reserve)
        self.quiet = bool(same)


class ShownStaysAsEntered(Book):
    def rewrite(self, order, price, displayed, reserve):
        shown = order.shown
        super().rewrite(order, price, displayed, reserve)
        order.shown = shown


class ChangeUndoesFilled(Book):
    def rewrite(self, order, price, displayed, reserve):
        super().rewrite(order, price, displayed, reserve)
        order.filled_in_part = False


class PriceAsWritten(Book):
    """A new price is one other than the price last written, before any re-pricing."""

    def entry(self, trader, side, type, price, displayed, reserve, end):
        number = super().entry(trader, side, type, price, displayed, reserve, end)
        self.orders[number].written = price
        return number

    def loses_place(self, order, price, displayed):
        return price != order.written or displayed > order.displayed

    def rewrite(self, order, price, displayed, reserve):
        super().rewrite(order, price, displayed, reserve)
        order.written = price


class ChangeDropsEndTime(Book):
    def rewrite(self, order, price, displayed, reserve):
        super().rewrite(order, price, displayed, reserve)
        order.end = 0


# ---- the FBS Period ----------------------------------------------------------------------------


class EndTimesBeforePhases(Book):
    def reach_moment(self):
        due = [moment for moment in self.moments() if moment[0] <= self.wished]
        first = min(due, key=lambda moment: (moment[0], moment[1] or 2**32), default=(0, 0))
        if first[1] == 0:
            return super().reach_moment()
        self.time = first[0]
        return self.remove(self.orders[first[1]], Cause.END_TIME)


class AnyFillEarnsPriority1(Book):
    def priority_1(self, trader, side):
        filled = [order for order in self.orders_of(trader, side) if order.filled_in_part]
        if not filled:
            return None
        carrier = min(filled, key=lambda order: order.first_session_fill)
        return Privilege(1, carrier.first_session_fill, carrier.number)


class Priority1OnlyAtP(Book):
    def priority_1(self, trader, side):
        privilege = super().priority_1(trader, side)
        at_p = privilege and self.orders[privilege.carrier].price == self.session.price
        return privilege if at_p else None


class FakEarnsNothing(Book):
    def priority_1(self, trader, side):
        privilege = super().priority_1(trader, side)
        fak = privilege and self.orders[privilege.carrier].type is OrderType.FAK
        return None if fak else privilege


class LowestNumberCarriesPriority1(Book):
    def priority_1(self, trader, side):
        privilege = super().priority_1(trader, side)
        if privilege:
            privilege.carrier = min(order.number for order in self.orders_of(trader, side)
                                    if order.first_session_fill)
        return privilege


class EarnedWhenEntered(Book):
    """Privileges rank by when their orders were entered."""

    def place_in_class(self, order, priority):
        if priority in (1, 2):
            return order.number if priority == 1 else -order.number
        return super().place_in_class(order, priority)


class EarnedByStamp(Book):
    """Privileges rank by the stamps of their orders."""

    def place_in_class(self, order, priority):
        return -order.stamp if priority == 2 else order.stamp


class Priority2OldestFirst(Book):
    def place_in_class(self, order, priority):
        place = super().place_in_class(order, priority)
        return -place if priority == 2 else place


class LastCompletedCounts(Book):
    def take_fill(self, order, size):
        if self.in_session() and order.displayed == size and order.reserve == 0:
            self.session.completed.pop((order.trader, order.side), None)
        super().take_fill(order, size)


class FallsBackOnPriority2(Book):
    def end_privilege_if_better(self, order):
        had = self.phase is Phase.FBS and self.privilege_of(order)
        super().end_privilege_if_better(order)
        key = order.trader, order.side
        if had and had.priority == 1 and key not in self.session.privileges:
            privilege = self.priority_2(*key)
            if privilege:
                self.session.privileges[key] = privilege


class OlderOrderCarriesPriority2(Book):
    def priority_2(self, trader, side):
        privilege = super().priority_2(trader, side)
        if privilege:
            numbers = [order.number for order in self.orders_of(trader, side)]
            privilege.carrier = min(numbers, default=0)
        return privilege


class GoneOrderHadCarried(Book):
    """An order entered after the fill and gone before the session's end took Priority 2 along."""

    def entry(self, trader, side, type, price, displayed, reserve, end):
        number = super().entry(trader, side, type, price, displayed, reserve, end)
        entries = self.__dict__.setdefault("entries", [])
        entries.append((trader, Side(side), self.fills, number))
        return number

    def priority_2(self, trader, side):
        privilege = super().priority_2(trader, side)
        if privilege:
            first = min((number for who, where, fills, number in self.entries
                         if (who, where) == (trader, side) and fills >= privilege.earned), default=0)
            if first and first not in self.orders:
                return None
        return privilege


class BetterEntryTakes(Book):
    def take_privilege(self, order):
        price = order.price
        if self.phase is Phase.FBS:
            order.price = self.session.price
        super().take_privilege(order)
        order.price = price


class BetterEntryForfeits(Book):
    def take_privilege(self, order):
        super().take_privilege(order)
        if self.phase is Phase.FBS and order.side.better(order.price, self.session.price):
            privilege = self.session.privileges.get((order.trader, order.side))
            if privilege and privilege.carrier == 0:
                del self.session.privileges[order.trader, order.side]


class ChangeTakes(Book):
    def change(self, trader, number, price, displayed, reserve):
        super().change(trader, number, price, displayed, reserve)
        self.take_privilege(self.orders[number])


class FakiTakesNothing(Book):
    def take_privilege(self, order):
        if order.type is not OrderType.FAKI:
            super().take_privilege(order)


class Priority1EndsWithItsOrder(Book):
    def release_privilege(self, order, gone):
        super().release_privilege(order, Gone.FILLED_WHOLE)


class OnlyCancelFrees(Book):
    def release_privilege(self, order, gone):
        freed = gone if gone is Gone.CANCELLED else Gone.FILLED_WHOLE
        super().release_privilege(order, freed)


class Priority2IsFreed(Book):
    def release_privilege(self, order, gone):
        privilege = self.privilege_of(order)
        if privilege and gone is not Gone.FILLED_WHOLE:
            privilege.carrier = 0
        else:
            super().release_privilege(order, gone)


class FilledWholeFrees(Book):
    def release_privilege(self, order, gone):
        super().release_privilege(order, Gone.CANCELLED)


class FreedNumberIsNew(Book):
    def release_privilege(self, order, gone):
        privilege = self.privilege_of(order)
        super().release_privilege(order, gone)
        if privilege:
            privilege.earned = self.fills + 1


class BetterPriceSuspends(Book):
    def end_privilege_if_better(self, order):
        pass


class BetterPriceFrees(Book):
    def end_privilege_if_better(self, order):
        privilege = self.phase is Phase.FBS and self.privilege_of(order)
        if privilege and order.side.better(order.price, self.session.price):
            privilege.carrier = 0


class NewPriceLosesClass(Book):
    def rewrite(self, order, price, displayed, reserve):
        if self.phase is Phase.FBS and price != order.price and self.privilege_of(order):
            del self.session.privileges[order.trader, order.side]
        super().rewrite(order, price, displayed, reserve)


class Class0OnlyAtP(Book):
    def class_of(self, order):
        found = super().class_of(order)
        return 3 if found == 0 and order.price != self.session.price else found


class Class0OnlyStanding(Book):
    """Class 0 is only for orders that stood there when the session ended."""
    standing = 0

    def settle_privileges(self):
        self.standing = self.numbers
        super().settle_privileges()

    def class_of(self, order):
        found = super().class_of(order)
        return 3 if found == 0 and order.number > self.standing else found


class FbsFillMovesLast(Book):
    def fill_pair(self):
        before = dict(self.orders)
        record = super().fill_pair()
        if record and self.phase is Phase.FBS:
            self.session.last_trader = {Side.BID: before[record.bid].trader,
                                        Side.OFFER: before[record.offer].trader}
        return record


class FbsFillEarnsPriority1(Book):
    def take_fill(self, order, size):
        super().take_fill(order, size)
        if self.phase is Phase.FBS and order.number in self.orders:
            key = order.trader, order.side
            self.session.privileges.setdefault(key, Privilege(1, self.fills, order.number))


class ClassesOutliveFbs(Book):
    kept = None

    def end_phase(self):
        self.kept = self.session
        return super().end_phase()

    def class_of(self, order):
        if self.phase is not Phase.OPEN or not self.kept:
            return super().class_of(order)
        if self.kept.last_trader[order.side] == order.trader:
            return 0
        return 3


# ---- the draw ----------------------------------------------------------------------------------


class SizesBeforeRestock(Book):
    def fill_pair(self):
        shown = {number: order.displayed for number, order in self.orders.items()}
        record = super().fill_pair()
        if record is None:
            return None
        return FillRecord(record.time, record.price, record.size,
                          record.bid, shown[record.bid] - record.size,
                          record.offer, shown[record.offer] - record.size)


class FakGoesInSession(Book):
    def spent(self, order):
        if order.type is OrderType.FAK and order.filled_in_part:
            return Cause.FAK
        return super().spent(order)


class FakWithoutFillGoes(Book):
    def spent(self, order):
        if order.type is OrderType.FAK and not self.in_session():
            return Cause.FAK
        return super().spent(order)


class FakiWaitsInSession(Book):
    def spent(self, order):
        return None if self.in_session() else super().spent(order)


class TickToPresentIsQuiet(Book):
    def tick(self, time):
        present = time == self.time
        super().tick(time)
        self.quiet = present


class TickToPresentRefused(Book):
    def tick(self, time):
        self.check_quiet()
        if time == self.time:
            raise Refused(8)
        super().tick(time)


class PriceOfOlderOrder(Book):
    def fill_price(self, bid, offer):
        if self.in_session():
            return self.session.price
        return min(bid, offer, key=lambda order: order.number).price


class PriceOfIncoming(Book):
    def fill_price(self, bid, offer):
        if self.in_session():
            return self.session.price
        return bid.price if bid.number == self.incoming else offer.price


# ---- refusals and messages ---------------------------------------------------------------------


class SizesCheckedFirst(Book):
    def check_price(self, price):
        self.price_to_check = price

    def check_sizes(self, displayed, reserve):
        super().check_sizes(displayed, reserve)
        super().check_price(self.price_to_check)


class OwnOrdersBeforeP(Book):
    """A change meets the check of own orders before that of P."""

    def order_of(self, trader, number):
        self.order_to_check = super().order_of(trader, number)
        return self.order_to_check

    def change(self, trader, number, price, displayed, reserve):
        try:
            super().change(trader, number, price, displayed, reserve)
        except Refused as refusal:
            if refusal.number == 14:
                self.check_own_orders(trader, self.order_to_check.side, price)
            raise


class EndNowAllowed(Book):
    def entry(self, trader, side, type, price, displayed, reserve, end):
        now = end != 0 and end == self.time
        number = super().entry(trader, side, type, price, displayed, reserve, end + now)
        self.orders[number].end = end
        return number


class EqualPricesDoNotMeet(Book):
    def check_own_orders(self, trader, side, price):
        super().check_own_orders(trader, side, price - 1 if side is Side.BID else price + 1)


class OwnPriceAlwaysAsWritten(Book):
    def check_sizes(self, displayed, reserve):
        super().check_sizes(displayed, reserve)
        if self.in_session() and self.entering:
            self.check_own_orders(*self.entering)

    entering = None

    def entry(self, trader, side, type, price, displayed, reserve, end):
        self.entering = trader, Side(side), price
        try:
            return super().entry(trader, side, type, price, displayed, reserve, end)
        finally:
            self.entering = None


class OwnPriceAsInSession(Book):
    """In the FBS Period, too, a trader's own orders are held against P at most."""

    def check_own_orders(self, trader, side, price):
        if self.phase is Phase.FBS and side.better(price, self.session.price):
            price = self.session.price
        super().check_own_orders(trader, side, price)


class ChangeAnswersNumber(Book):
    def change(self, trader, number, price, displayed, reserve):
        super().change(trader, number, price, displayed, reserve)
        return number


def unsigned_prices(data):
    """Prices are read as unsigned numbers, and so lie outside the range."""
    class Unsigned(Book):
        def check_price(self, price):
            super().check_price(price % 2**32)
    return venue.run(data, Unsigned())


def silent_end(data):
    """An incomplete message at the end gets no reply."""
    out = venue.run(data)
    last = messages.write(messages.reply(2))
    return out[:-len(last)] if out.endswith(last) else out


def record_for_malformed_draw(data):
    """A message of kind 5 is taken for a draw whatever its length says."""
    start = 0
    while start < len(data):
        try:
            _, taken = messages.read(data[start:])
        except Refused as refusal:
            if refusal.number == 5 and data[start + 3] == 5:
                return venue.run(data[:start] + bytes.fromhex("00 02 01 05"))
            break
        start += taken
    return venue.run(data)


# The rivals that each directed stream must catch.
CAUGHT_BY = {
    "owner-early": (OwnerAtAnyTime,),
    "owner-without-trigger": (OwnerGoesWithTrigger,),
    "passive-owner-away": (PassiveSideOpenToAll,),
    "prior-restock": (RestockStaysPrior,),
    "prior-larger": (LargerStaysPrior,),
    "prior-smaller": (EveryChangeEndsPrior,),
    "prior-return": (PriorComesBack,),
    "better-in-fbs": (RepricesInFbs, RefusesBetterInFbs),
    "rolling-end": (RollingGetsFullPeriod, RollingForgetsTimed),
    "no-session-in-fbs": (FbsFillBeginsSession,),
    "restock-when-used-up": (RestocksAfterEachFill,),
    "larger-than-now": (LargerThanShown,),
    "change-of-nothing": (EveryChangeTakesStamp, ChangeOfNothingIsQuiet),
    "shown-after-change": (ShownStaysAsEntered,),
    "filled-for-life": (ChangeUndoesFilled,),
    "price-now": (PriceAsWritten,),
    "change-keeps-end": (ChangeDropsEndTime,),
    "ends-with-session": (EndTimesBeforePhases,),
    "earlier-fill": (AnyFillEarnsPriority1,),
    "priority-1-any-price": (Priority1OnlyAtP,),
    "fak-frees": (FakEarnsNothing, OnlyCancelFrees),
    "earliest-fill-carries": (LowestNumberCarriesPriority1,),
    "earned-not-queued": (EarnedWhenEntered, EarnedByStamp),
    "priority-2-newest": (Priority2OldestFirst,),
    "first-completed": (LastCompletedCounts,),
    "no-fallback": (FallsBackOnPriority2,),
    "entered-after": (OlderOrderCarriesPriority2,),
    "gone-before-end": (GoneOrderHadCarried,),
    "better-entry-passes": (BetterEntryTakes, BetterEntryForfeits),
    "change-takes-nothing": (ChangeTakes,),
    "faki-takes": (FakiTakesNothing,),
    "cancel-frees-1": (Priority1EndsWithItsOrder,),
    "end-time-frees-1": (OnlyCancelFrees,),
    "cancel-ends-2": (Priority2IsFreed,),
    "filled-ends-1": (FilledWholeFrees,),
    "freed-number": (FreedNumberIsNew,),
    "better-ends": (BetterPriceSuspends, BetterPriceFrees),
    "worse-keeps": (NewPriceLosesClass,),
    "class-0-all": (Class0OnlyAtP, Class0OnlyStanding),
    "fbs-fill-earns-nothing": (FbsFillMovesLast, FbsFillEarnsPriority1),
    "open-resets": (ClassesOutliveFbs,),
    "sizes-after-restock": (SizesBeforeRestock,),
    "one-moment": (EndTimesBeforePhases,),
    "fak-in-session": (FakGoesInSession, FakWithoutFillGoes),
    "faki-in-session": (FakiWaitsInSession,),
    "tick-to-present": (TickToPresentIsQuiet, TickToPresentRefused),
    "resting-price": (PriceOfOlderOrder, PriceOfIncoming),
    "first-refusal": (SizesCheckedFirst, OwnOrdersBeforeP),
    "end-now": (EndNowAllowed,),
    "own-price": (EqualPricesDoNotMeet, OwnPriceAlwaysAsWritten, OwnPriceAsInSession),
    "reply-number": (ChangeAnswersNumber,),
    "negative-prices": (unsigned_prices,),
    "ends-inside": (silent_end,),
    "malformed-draw": (record_for_malformed_draw,),
}


def run(rival, data):
    """What a venue with this rival answers, or None if it breaks down."""
    try:
        return venue.run(data, rival()) if isinstance(rival, type) else rival(data)
    except (KeyError, AttributeError, ValueError, TypeError):
        return None


def main(arguments):
    if len(arguments) != 2:
        sys.exit(__doc__)
    import generate
    number, count = map(int, arguments)
    data = [generate.stream(seed, count) for seed in range(number)]
    right = [venue.run(one) for one in data]
    for rival in sorted({rival for rivals in CAUGHT_BY.values() for rival in rivals},
                        key=lambda rival: rival.__name__):
        caught = sum(run(rival, one) != answers for one, answers in zip(data, right))
        print(f"{caught:5} of {number} streams catch {rival.__name__}")


if __name__ == "__main__":
    main(sys.argv[1:])
