"""Tests of the model.

    python3 model/test_model.py
"""

import unittest

import check_docs
import directed
import generate
import laws
import messages
import rivals
import venue
from book import (Book, Cause, FillRecord, MAX_WRITES, OrderType, QuietRecord, Refused, RollingRecord,
                  FbsRecord, OpenRecord, SessionRecord, RemovalRecord, Settings, Side)

FAS, FAK, FAKI = OrderType


def to_quiet(book):
    """Draws to quiet; the records before it."""
    records = []
    while True:
        record = book.draw()
        if isinstance(record, QuietRecord):
            return records
        records.append(record)


def bid(book, trader, price, displayed=50, reserve=0, end=0, type=FAS):
    return book.entry(trader, Side.BID, type, price, displayed, reserve, end)


def offer(book, trader, price, displayed=50, reserve=0, end=0, type=FAS):
    return book.entry(trader, Side.OFFER, type, price, displayed, reserve, end)


class Refusals(unittest.TestCase):
    """A test case that can say which refusal it expects."""

    def refused(self, number, call, *arguments, **named):
        with self.assertRaises(Refused) as caught:
            call(*arguments, **named)
        self.assertEqual(caught.exception.number, number)
        return caught.exception


class WorkedExample(Refusals):
    """One session from its first bid to the FBS Period, step by step."""

    def setUp(self):
        self.book = Book()
        bid(self.book, 1, 100, 50, reserve=100)
        self.assertEqual(to_quiet(self.book), [])
        offer(self.book, 2, 98)
        self.begun = to_quiet(self.book)

    def test_an_offer_below_the_bid_begins_a_session_at_the_bid(self):
        self.assertEqual(self.begun, [SessionRecord(0, 100, 1), FillRecord(0, 100, 50, 1, 50, 2, 0)])

    def with_offers_3_and_4(self):
        self.assertEqual(offer(self.book, 3, 100), 3)
        stranger = to_quiet(self.book)
        self.assertEqual(offer(self.book, 2, 100), 4)
        return stranger, to_quiet(self.book)

    def test_only_the_aggressive_owner_trades_in_timed(self):
        stranger, owner = self.with_offers_3_and_4()
        self.assertEqual(stranger, [])
        self.assertEqual(owner, [FillRecord(0, 100, 50, 1, 50, 4, 0)])

    def test_everyone_trades_in_rolling(self):
        self.with_offers_3_and_4()
        self.book.tick(9_999)
        self.assertEqual(to_quiet(self.book), [])
        self.book.tick(10_000)
        self.assertEqual(to_quiet(self.book),
                         [RollingRecord(10_000), FillRecord(10_000, 100, 50, 1, 0, 3, 0)])
        self.book.tick(20_000)
        self.assertEqual(to_quiet(self.book), [FbsRecord(20_000)])
        self.book.tick(28_000)
        self.assertEqual(to_quiet(self.book), [OpenRecord(28_000)])

    def test_rolling_is_over_at_once_if_nothing_trades(self):
        self.book.tick(10_000)
        self.assertEqual(to_quiet(self.book), [RollingRecord(10_000), FbsRecord(10_000)])

    def test_a_better_entry_rests_at_p_and_a_better_change_is_refused(self):
        number = bid(self.book, 4, 101)
        self.assertEqual(to_quiet(self.book), [])
        self.assertEqual(self.book.orders[number].price, 100)
        self.refused(14, self.book.change, 4, number, 101, 50, 0)


class SettingsAndLots(Refusals):
    def test_the_lot_of_every_tenor(self):
        lots = [250] * 2 + [150] + [100] * 2 + [75] * 2 + [50] * 5 + [25] * 18
        self.assertEqual([Settings(tenor).lot for tenor in range(1, 31)], lots)
        self.assertEqual(Settings(40).lot, 10)

    def test_refused_settings(self):
        for tenor in (0, -1, 31, 39, 41):
            self.refused(1, Settings, tenor)
        for period in (0, 60_001):
            self.refused(1, Settings, timed=period)
            self.refused(1, Settings, rolling=period)
            self.refused(1, Settings, fbs=period)
        Settings(1, 1, 60_000, 1)

    def test_sizes(self):
        for size in (50, 1_000_000):
            book = Book()
            self.assertEqual(bid(book, 1, 0, size, reserve=size), 1)
        for size in (25, 1_000_050, 0):
            self.refused(12, bid, Book(), 1, 0, size)
        for reserve in (25, 1_000_050):
            self.refused(12, bid, Book(), 1, 0, 50, reserve)
        # With a lot of 150 the largest size is below the limit.
        book = Book(Settings(3))
        bid(book, 1, 0, 999_900)
        self.refused(12, bid, Book(Settings(3)), 1, 0, 1_000_000)


class Misreadings(unittest.TestCase):
    """Readings of the rules that come to mind, and are wrong."""

    def tells_apart(self, name, rival):
        data = dict(directed.streams())[name]
        self.assertNotEqual(venue.run(data), rivals.run(rival, data))

    def test_rolling_does_not_get_a_full_period_from_its_beginning(self):
        self.tells_apart("rolling-end", rivals.RollingGetsFullPeriod)

    def test_priority_2_does_not_rank_oldest_first(self):
        self.tells_apart("priority-2-newest", rivals.Priority2OldestFirst)

    def test_a_fill_in_the_fbs_period_begins_no_session(self):
        self.tells_apart("no-session-in-fbs", rivals.FbsFillBeginsSession)

    def test_a_restocked_order_is_prior_no_more(self):
        self.tells_apart("prior-restock", rivals.RestockStaysPrior)

    def test_the_earned_number_is_not_when_the_order_joined_the_queue(self):
        self.tells_apart("earned-not-queued", rivals.EarnedWhenEntered)
        self.tells_apart("earned-not-queued", rivals.EarnedByStamp)


class DirectedStreams(unittest.TestCase):
    def test_each_stream_answers_what_it_says(self):
        for play in directed.STREAMS:
            with self.subTest(directed.name_of(play)):
                directed.stream_of(play)

    def test_each_stream_catches_its_rivals(self):
        streams = dict(directed.streams())
        self.assertEqual(sorted(streams), sorted(rivals.CAUGHT_BY))
        for name, caught in rivals.CAUGHT_BY.items():
            for rival in caught:
                with self.subTest(name, rival=rival.__name__):
                    wrong = rivals.run(rival, streams[name])
                    self.assertIsNotNone(wrong)
                    self.assertNotEqual(wrong, venue.run(streams[name]))

    def test_all_in_one(self):
        out = venue.run(directed.all_in_one())
        self.assertTrue(out.endswith(messages.write(messages.reply(2))))


class Limits(Refusals):
    def test_a_million_entries_and_changes(self):
        book = Book()
        first = bid(book, 1, 100)
        to_quiet(book)
        book.writes = MAX_WRITES - 1
        book.change(1, first, 99, 50, 0)
        to_quiet(book)
        self.refused(16, book.change, 1, first, 98, 50, 0)
        self.refused(16, bid, book, 1, 98)
        self.refused(15, offer, book, 1, 99)
        book.cancel(1, first)
        to_quiet(book)
        book.tick(1)

    def test_128_live_orders(self):
        book = Book()
        for trader in range(1, 129):
            bid(book, trader, -trader)
            to_quiet(book)
        self.refused(17, bid, book, 1, 0)
        self.refused(17, offer, book, 1, 0)
        self.refused(15, offer, book, 1, -1)
        book.change(1, 1, 5, 50, 0)
        to_quiet(book)
        book.cancel(1, 1)
        to_quiet(book)
        self.assertEqual(bid(book, 1, 0), 129)

    def test_rooms(self):
        book = Book(rooms=(1, 2, 1))
        bid(book, 1, 0, end=5)
        to_quiet(book)
        self.refused(18, bid, book, 2, 0)
        self.refused(18, offer, book, 2, 1, end=9)
        self.assertEqual(self.refused(18, bid, book, 2, 0).layer, "line")
        offer(book, 2, 1)
        to_quiet(book)
        offer(book, 2, 1)
        to_quiet(book)
        self.refused(18, offer, book, 2, 1)
        for rooms in ((0, 0, 0), (0, 5, 5)):
            self.refused(18, bid, Book(rooms=rooms), 1, 0)

    def test_times_and_prices(self):
        book = Book()
        self.refused(8, book.tick, 10**12 + 1)
        self.refused(13, bid, book, 1, 0, end=10**12 + 1)
        self.refused(11, bid, book, 1, 1_000_001)
        self.refused(11, offer, book, 1, -1_000_001)
        bid(book, 1, -1_000_000, end=10**12)
        to_quiet(book)
        offer(book, 2, 1_000_000)
        to_quiet(book)
        book.tick(10**12)
        self.assertEqual(to_quiet(book), [RemovalRecord(10**12, 1, 50, Cause.END_TIME)])
        self.refused(13, bid, book, 1, 0, end=10**12)
        book.tick(10**12)


class Summaries(unittest.TestCase):
    def test_absent(self):
        self.assertIsNone(Book().summary(Side.BID))

    def test_the_first_eight_at_the_best_price(self):
        book = Book()
        for trader in range(1, 10):
            offer(book, trader, 7, 50 * trader, reserve=500)
            to_quiet(book)
        offer(book, 20, 8, 1_000)
        self.assertEqual(book.summary(Side.OFFER), (7, 50 * sum(range(1, 9))))

    def test_while_the_tape_is_not_quiet(self):
        book = Book()
        bid(book, 1, 100, 50, reserve=100)
        self.assertEqual(book.summary(Side.BID), (100, 50))
        to_quiet(book)
        offer(book, 2, 98, 150)
        self.assertEqual(book.summary(Side.OFFER), (98, 150))
        book.draw()
        self.assertEqual(book.summary(Side.OFFER), (100, 150))
        book.draw()
        self.assertEqual(book.summary(Side.OFFER), (100, 100))

    def test_it_goes_by_rank(self):
        """In the FBS Period a ninth order can come in front of the first eight."""
        stream = directed.Stream()
        directed.filled_whole(stream)
        directed.to_fbs(stream)
        for trader in range(11, 20):
            stream.bid(trader, 100)
        stream.bid(2, 100, 1_000)
        self.assertEqual(stream.book.summary(Side.BID), (100, 1_000 + 7 * 50))


class Messages(Refusals):
    def test_written_and_read_again(self):
        for seed in range(8):
            for message, answer in generate.calls(seed, 200, Book()):
                data = messages.write(message)
                self.assertEqual(messages.read(data + b"more"), ({"reference": b"", **message}
                                 if message["kind"] == "entry" else message, len(data)))
                self.assertEqual(messages.read_answer(messages.write(answer)),
                                 (answer, len(messages.write(answer))))

    def test_every_cut_is_refused_with_the_bytes_present(self):
        data = messages.write({"kind": "tick", "time": 1})
        for length in range(len(data)):
            refusal = self.refused(2, messages.read, data[:length])
            self.assertEqual((refusal.byte, refusal.layer), (length, "message"))

    def test_lengths(self):
        lengths = {1: range(25, 42), 2: (19,), 3: (7,), 4: (10,), 5: (2,)}
        for kind, fitting in lengths.items():
            for length in range(2, 60):
                data = messages.HEAD.pack(length, 1, kind) + bytes(length - 2)
                if length in fitting:
                    self.assertEqual(messages.read(data)[1], length + 2)
                else:
                    self.assertEqual(self.refused(5, messages.read, data).byte, 0)

    def test_the_first_fault_is_told(self):
        entry = bytearray(messages.write(messages.parse(
            'entry trader=1 side=bid type=FaS price=1 displayed=50 reserve=0 end=0 reference=""')))
        entry[6] = 3
        self.assertEqual(self.refused(6, messages.read, bytes(entry)).byte, 6)
        entry[5] = 2
        self.assertEqual(self.refused(6, messages.read, bytes(entry)).byte, 5)
        entry[1] += 17
        self.assertEqual(self.refused(5, messages.read, bytes(entry) + bytes(17)).byte, 0)
        entry[3] = 6
        self.assertEqual(self.refused(4, messages.read, bytes(entry) + bytes(17)).byte, 3)
        entry[2] = 0
        self.assertEqual(self.refused(3, messages.read, bytes(entry) + bytes(17)).byte, 2)
        self.assertEqual(self.refused(2, messages.read, bytes(entry)).byte, 27)

    def test_writing_into_a_buffer(self):
        message = messages.reply(7)
        for length in range(9):
            buffer = bytearray(b"x" * length)
            self.assertEqual(self.refused(19, messages.write_into, message, buffer).layer, "writer")
            self.assertEqual(buffer, b"x" * length)
        buffer = bytearray(b"x" * 11)
        self.assertEqual(messages.write_into(message, buffer), 9)
        self.assertEqual(buffer, messages.write(message) + b"xx")

    def test_the_documents(self):
        self.assertEqual(check_docs.main(), 0)


class Venue(unittest.TestCase):
    QUIET = bytes.fromhex("00 0A 01 10 00 00 00 00 00 00 00 00")
    DRAW = bytes.fromhex("00 02 01 05")

    def test_a_draw_of_a_new_book(self):
        self.assertEqual(venue.run(self.DRAW), self.QUIET)

    def test_nothing_in_nothing_out(self):
        self.assertEqual(venue.run(b""), b"")

    def test_it_stops_after_a_message_refusal(self):
        for number, broken in ((2, "00"), (2, "00 01 01 05"), (3, "00 02 03 05"), (4, "00 02 01 00"),
                               (5, "00 04 01 05 00 00")):
            data = self.DRAW + bytes.fromhex(broken)
            tail = b"" if broken == "00" else self.DRAW
            reply = messages.write(messages.reply(number))
            self.assertEqual(venue.run(data + tail), self.QUIET + reply)

    def test_it_goes_on_after_a_refusal_of_the_book(self):
        tick = messages.write({"kind": "tick", "time": 10**12 + 1})
        self.assertEqual(venue.run(tick + self.DRAW), messages.write(messages.reply(8)) + self.QUIET)


class Random(unittest.TestCase):
    def test_equal_seeds_give_equal_streams(self):
        self.assertEqual(generate.stream(5, 300), generate.stream(5, 300))

    def test_the_streams_reach_everything(self):
        kinds, refusals = set(), set()
        for seed in range(60):
            book = Book() if seed % 3 else Book(rooms=(6, 6, 2))
            for _, answer in generate.calls(seed, 400, book):
                kinds.add(answer["kind"])
                refusals.add(answer.get("refusal"))
        self.assertEqual(kinds, set(messages.ANSWERS))
        self.assertEqual(refusals - {None, 0}, {7, 8, 9, 10, 11, 12, 13, 14, 15, 17, 18})
        ends = {messages.read_answer(venue.run(generate.stream(seed, 0))[-9:])[0]["refusal"]
                for seed in range(3, 4 * len(generate.BROKEN_ENDS), 4)}
        self.assertEqual(ends, {2, 3, 4, 5, 6})

    def test_the_laws_hold(self):
        for seed in range(30):
            with self.subTest(seed=seed):
                laws.audit(seed, 300, Book())

    def test_the_laws_hold_in_other_books(self):
        for seed in range(10):
            with self.subTest(seed=seed):
                laws.audit(seed, 300, Book(Settings(40, 1 + seed, 3, 60_000), (5, 7, 3)))

    def test_reserves_stay_hidden(self):
        restocks = sum(laws.compare(seed, 300, Book)[1] for seed in range(30))
        self.assertGreater(restocks, 100)

    def test_the_auditor_catches_a_book_that_feigns_quiet(self):
        class Lazy(Book):
            """Fills one pair and then says that it is quiet."""
            rested = True

            def fill_pair(self):
                self.rested = not self.rested
                return None if self.rested else super().fill_pair()

        with self.assertRaises(AssertionError):
            for seed in range(5):
                laws.audit(seed, 300, Lazy())

    def test_the_comparison_catches_a_book_that_shows_reserves(self):
        class Open(Book):
            """Counts reserves in the summary."""

            def summary(self, side):
                best = super().summary(side)
                return best and (best[0], best[1] + sum(order.reserve for order in self.queue(side)))

        with self.assertRaises(AssertionError):
            for seed in range(5):
                laws.compare(seed, 300, Open)


if __name__ == "__main__":
    unittest.main()
