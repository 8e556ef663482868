//! The order book: entry, change, cancel, tick and draw.

use crate::market::*;
use crate::privileges::{Gone, Priority, Privilege, Privileges};
use crate::sorted::Sorted;

struct Order {
    number: u32,
    trader: u8,
    side: Side,
    kind: OrderType,
    price: i32,
    displayed: u32,
    reserve: u32,
    shown: u32,
    end: u64,
    stamp: u64,
    filled_in_part: bool,
    /// The book's fills when the order was entered.
    entered_after: u64,
    /// Its first fill in the last session in which it had one.
    session_fill: u64,
}

/// An order's place in the queue of its side; the least is first.
#[derive(Clone, Copy, PartialEq, Eq, PartialOrd, Ord)]
struct Rank {
    /// The price, turned round for bids, so that the better one is less.
    price: i32,
    class: u8,
    place: i64,
    number: u32,
    trader: u8,
}

/// A session, and the FBS Period after it.
struct Session {
    /// The Work-Up Price P.
    price: i32,
    passive_side: Side,
    passive_owner: u8,
    trigger_owner: u8,
    aggressive_owner: Option<u8>,
    /// Whether it has answered its first quiet.
    rested: bool,
    /// Stamps and fills given out before it began.
    stamps_before: u64,
    fills_before: u64,
    last_fill_time: u64,
    last_traders: [u8; 2],
    /// The fill that first completed an order, by side and trader; 0 for none.
    completed: [[u64; MAX_TRADER as usize + 1]; 2],
}

impl Default for Session {
    fn default() -> Self {
        Session {
            price: 0,
            passive_side: Side::Bid,
            passive_owner: 0,
            trigger_owner: 0,
            aggressive_owner: None,
            rested: false,
            stamps_before: 0,
            fills_before: 0,
            last_fill_time: 0,
            last_traders: [0; 2],
            completed: [[0; MAX_TRADER as usize + 1]; 2],
        }
    }
}

pub struct Rooms {
    pub bids: usize,
    pub offers: usize,
    pub ends: usize,
}

pub struct Book {
    settings: Settings,
    rooms: Rooms,
    /// The live orders, by rising number.
    orders: Vec<Order>,
    queues: [Sorted<Rank>; 2],
    ends: Sorted<(u64, u32)>,
    privileges: Privileges,
    phase: Phase,
    phase_began: u64,
    /// Has a meaning outside Open only.
    session: Session,
    time: u64,
    wished: u64,
    quiet: bool,
    incoming: u32,
    numbers: u32,
    stamps: u64,
    fills: u64,
    writes: u32,
    /// How many live orders are FaKI, and how many are FaK and filled in part.
    faki: usize,
    fak_filled: usize,
}

impl Book {
    pub fn new(settings: Settings, rooms: Rooms) -> Book {
        Book {
            settings,
            rooms,
            orders: Vec::with_capacity(MAX_LIVE),
            queues: [Sorted::default(), Sorted::default()],
            ends: Sorted::default(),
            privileges: Privileges::default(),
            phase: Phase::Open,
            phase_began: 0,
            session: Session::default(),
            time: 0,
            wished: 0,
            quiet: true,
            incoming: 0,
            numbers: 0,
            stamps: 0,
            fills: 0,
            writes: 0,
            faki: 0,
            fak_filled: 0,
        }
    }

    pub fn time(&self) -> u64 {
        self.time
    }

    // ---- calls ----------------------------------------------------------------------------

    pub fn entry(&mut self, new: NewOrder) -> Result<u32, Refusal> {
        self.check_quiet()?;
        check_trader(new.trader)?;
        self.check_price_and_sizes(new.price, new.displayed, new.reserve)?;
        if new.end != 0 && (new.end <= self.time || new.end > MAX_TIME) {
            return Err(Refusal::EndTime);
        }
        let price = if self.better_than_p_in_session(new.side, new.price) {
            self.session.price
        } else {
            new.price
        };
        self.check_own_orders(new.trader, new.side, price)?;
        self.check_writes()?;
        if self.orders.len() >= MAX_LIVE {
            return Err(Refusal::TooManyOrders);
        }
        self.check_rooms(new.side, new.end)?;
        self.add(NewOrder { price, ..new });
        Ok(self.numbers)
    }

    fn add(&mut self, new: NewOrder) {
        self.numbers += 1;
        self.stamps += 1;
        let order = Order {
            number: self.numbers,
            trader: new.trader,
            side: new.side,
            kind: new.kind,
            price: new.price,
            displayed: new.displayed,
            reserve: new.reserve,
            shown: new.displayed,
            end: new.end,
            stamp: self.stamps,
            filled_in_part: false,
            entered_after: self.fills,
            session_fill: 0,
        };
        if self.phase == Phase::Fbs && !order.side.better(order.price, self.session.price) {
            self.privileges.take(order.trader, order.side, order.number);
        }
        if order.end != 0 {
            self.ends.insert((order.end, order.number));
        }
        self.faki += (order.kind == OrderType::FaKI) as usize;
        let rank = self.rank(&order);
        self.queues[order.side as usize].insert(rank);
        self.note_write(order.number);
        self.orders.push(order);
    }

    pub fn change(&mut self, new: Rewrite) -> Result<(), Refusal> {
        self.check_quiet()?;
        check_trader(new.trader)?;
        let at = self.find(new.trader, new.order)?;
        self.check_price_and_sizes(new.price, new.displayed, new.reserve)?;
        let side = self.orders[at].side;
        if self.better_than_p_in_session(side, new.price) {
            return Err(Refusal::BetterThanP);
        }
        self.check_own_orders(new.trader, side, new.price)?;
        self.check_writes()?;

        let old = self.rank(&self.orders[at]);
        let order = &mut self.orders[at];
        if new.price != order.price || new.displayed > order.displayed {
            self.stamps += 1;
            order.stamp = self.stamps;
        }
        order.price = new.price;
        order.displayed = new.displayed;
        order.shown = new.displayed;
        order.reserve = new.reserve;
        if self.phase == Phase::Fbs && side.better(new.price, self.session.price) {
            self.privileges.end(new.trader, side, new.order);
        }
        self.move_in_queue(at, old);
        self.note_write(new.order);
        Ok(())
    }

    pub fn cancel(&mut self, trader: u8, number: u32) -> Result<(), Refusal> {
        self.check_quiet()?;
        check_trader(trader)?;
        let at = self.find(trader, number)?;
        self.leave(at, Gone::Withdrawn);
        self.wish(self.time);
        Ok(())
    }

    pub fn tick(&mut self, time: u64) -> Result<(), Refusal> {
        self.check_quiet()?;
        if time < self.time || time > MAX_TIME {
            return Err(Refusal::Time);
        }
        self.wish(time);
        Ok(())
    }

    /// Takes the first step that applies.
    pub fn draw(&mut self) -> Record {
        let record = self
            .begin_session()
            .or_else(|| self.fill_pair())
            .or_else(|| self.remove_spent())
            .or_else(|| self.reach_moment())
            .unwrap_or_else(|| self.rest());
        if self.phase == Phase::Timed && !self.session.rested {
            if self.first_prior().is_none() {
                self.session.aggressive_owner = Some(self.session.trigger_owner);
            }
            self.session.rested = record == Record::Quiet;
        }
        record
    }

    // ---- checks ---------------------------------------------------------------------------

    fn check_quiet(&self) -> Result<(), Refusal> {
        if self.quiet {
            Ok(())
        } else {
            Err(Refusal::NotQuiet)
        }
    }

    fn find(&self, trader: u8, number: u32) -> Result<usize, Refusal> {
        self.orders
            .binary_search_by_key(&number, |order| order.number)
            .ok()
            .filter(|&at| self.orders[at].trader == trader)
            .ok_or(Refusal::NoSuchOrder)
    }

    fn check_price_and_sizes(
        &self,
        price: i32,
        displayed: u32,
        reserve: u32,
    ) -> Result<(), Refusal> {
        if !(-MAX_PRICE..=MAX_PRICE).contains(&price) {
            return Err(Refusal::Price);
        }
        let lawful = |size: u32| size <= MAX_SIZE && size.is_multiple_of(self.settings.lot);
        if displayed == 0 || !lawful(displayed) || !lawful(reserve) {
            return Err(Refusal::Size);
        }
        Ok(())
    }

    fn better_than_p_in_session(&self, side: Side, price: i32) -> bool {
        self.in_session() && side.better(price, self.session.price)
    }

    fn check_own_orders(&self, trader: u8, side: Side, price: i32) -> Result<(), Refusal> {
        let limit = sort_price(side.other(), price);
        let meets = self.queues[side.other() as usize]
            .iter()
            .take_while(|rank| rank.price <= limit)
            .any(|rank| rank.trader == trader);
        if meets {
            Err(Refusal::OwnOrder)
        } else {
            Ok(())
        }
    }

    fn check_writes(&self) -> Result<(), Refusal> {
        if self.writes < MAX_WRITES {
            Ok(())
        } else {
            Err(Refusal::TooManyWrites)
        }
    }

    fn check_rooms(&self, side: Side, end: u64) -> Result<(), Refusal> {
        let room = match side {
            Side::Bid => self.rooms.bids,
            Side::Offer => self.rooms.offers,
        };
        let no_end_room = end != 0 && self.ends.len() >= self.rooms.ends;
        if self.queues[side as usize].len() >= room || no_end_room {
            return Err(Refusal::LineFull);
        }
        Ok(())
    }

    // ---- orders ---------------------------------------------------------------------------

    fn in_session(&self) -> bool {
        matches!(self.phase, Phase::Timed | Phase::Rolling)
    }

    fn wish(&mut self, time: u64) {
        self.wished = time;
        self.quiet = false;
    }

    fn note_write(&mut self, number: u32) {
        self.writes += 1;
        self.incoming = number;
        self.wish(self.time);
    }

    fn position(&self, number: u32) -> usize {
        self.orders
            .binary_search_by_key(&number, |order| order.number)
            .expect("a ranked order is live")
    }

    fn rank(&self, order: &Order) -> Rank {
        let (class, place) = self.class(order);
        Rank {
            price: sort_price(order.side, order.price),
            class,
            place,
            number: order.number,
            trader: order.trader,
        }
    }

    /// The class of an order, and its place within it.
    fn class(&self, order: &Order) -> (u8, i64) {
        let stamp = order.stamp as i64;
        if self.phase != Phase::Fbs {
            return (3, stamp);
        }
        if self.session.last_traders[order.side as usize] == order.trader {
            return (0, stamp);
        }
        match self
            .privileges
            .carried(order.trader, order.side, order.number)
        {
            Some(Privilege {
                priority: Priority::One,
                earned,
                ..
            }) => (1, earned as i64),
            Some(Privilege {
                priority: Priority::Two,
                earned,
                ..
            }) => (2, -(earned as i64)),
            None => (3, stamp),
        }
    }

    fn move_in_queue(&mut self, at: usize, old: Rank) {
        let new = self.rank(&self.orders[at]);
        if new != old {
            let queue = &mut self.queues[self.orders[at].side as usize];
            queue.remove(&old);
            queue.insert(new);
        }
    }

    /// After classes have changed for many.
    fn rank_all(&mut self) {
        for side in Side::BOTH {
            let mut queue = std::mem::take(&mut self.queues[side as usize]);
            let orders = self.orders.iter().filter(|order| order.side == side);
            queue.refill(orders.map(|order| self.rank(order)));
            self.queues[side as usize] = queue;
        }
    }

    fn leave(&mut self, at: usize, gone: Gone) -> Order {
        let rank = self.rank(&self.orders[at]);
        let order = self.orders.remove(at);
        self.queues[order.side as usize].remove(&rank);
        if order.end != 0 {
            self.ends.remove(&(order.end, order.number));
        }
        match order.kind {
            OrderType::FaKI => self.faki -= 1,
            OrderType::FaK if order.filled_in_part => self.fak_filled -= 1,
            _ => {}
        }
        if self.phase == Phase::Fbs {
            self.privileges
                .release(order.trader, order.side, order.number, gone);
        }
        order
    }

    // ---- the session ----------------------------------------------------------------------

    fn first(&self, side: Side) -> Option<Rank> {
        self.queues[side as usize].first()
    }

    fn prices_meet(&self) -> bool {
        match (self.first(Side::Bid), self.first(Side::Offer)) {
            (Some(bid), Some(offer)) => -bid.price >= offer.price,
            _ => false,
        }
    }

    fn begin_session(&mut self) -> Option<Record> {
        if self.phase != Phase::Open || !self.prices_meet() {
            return None;
        }
        let at = self.position(self.incoming);
        let trigger = &self.orders[at];
        let (trigger_owner, passive_side) = (trigger.trader, trigger.side.other());
        let passive = self.first(passive_side)?;
        let price = sort_price(passive_side, passive.price);
        let old = self.rank(trigger);
        self.session = Session {
            price,
            passive_side,
            passive_owner: passive.trader,
            trigger_owner,
            stamps_before: self.stamps,
            fills_before: self.fills,
            ..Session::default()
        };
        self.orders[at].price = price;
        self.move_in_queue(at, old);
        self.enter(Phase::Timed);
        Some(Record::Session {
            price,
            passive: passive.number,
        })
    }

    /// The orders of a side at P, first by rank first.
    fn at_p(&self, side: Side) -> impl Iterator<Item = &Rank> {
        let price = sort_price(side, self.session.price);
        self.queues[side as usize]
            .iter()
            .take_while(move |rank| rank.price == price)
    }

    /// In Timed: the first prior order. An order at P on the passive side is prior exactly if its
    /// stamp is older than the session, since it was at P then. So prior orders come first.
    fn first_prior(&self) -> Option<&Rank> {
        let before = self.session.stamps_before as i64;
        self.at_p(self.session.passive_side)
            .next()
            .filter(|rank| rank.place <= before)
    }

    /// The first entitled order of a side.
    fn first_entitled(&self, side: Side) -> Option<u32> {
        let session = &self.session;
        let rank = match self.phase {
            Phase::Open => None,
            Phase::Timed if side == session.passive_side => self.first_prior().or_else(|| {
                self.at_p(side)
                    .find(|rank| rank.trader == session.passive_owner)
            }),
            Phase::Timed => match session.aggressive_owner {
                Some(owner) => self.at_p(side).find(|rank| rank.trader == owner),
                None => self.at_p(side).next(),
            },
            Phase::Rolling => self.at_p(side).next(),
            Phase::Fbs if self.prices_meet() => self.queues[side as usize].iter().next(),
            Phase::Fbs => None,
        };
        rank.map(|rank| rank.number)
    }

    // ---- fills ----------------------------------------------------------------------------

    fn fill_pair(&mut self) -> Option<Record> {
        let bid = self.first_entitled(Side::Bid)?;
        let offer = self.first_entitled(Side::Offer)?;
        let (buy, sell) = (
            &self.orders[self.position(bid)],
            &self.orders[self.position(offer)],
        );
        let size = buy.displayed.min(sell.displayed);
        let price = match self.phase {
            Phase::Timed | Phase::Rolling => self.session.price,
            _ if self.incoming == bid => sell.price,
            _ => buy.price,
        };
        self.fills += 1;
        if self.in_session() {
            self.session.last_traders = [buy.trader, sell.trader];
            self.session.last_fill_time = self.time;
        }
        let bid_displayed = self.take_fill(bid, size);
        let offer_displayed = self.take_fill(offer, size);
        Some(Record::Fill {
            price,
            size,
            bid,
            bid_displayed,
            offer,
            offer_displayed,
        })
    }

    /// Takes the size from the order, and restocks it or lets it go if nothing is displayed then;
    /// answers what it displays.
    fn take_fill(&mut self, number: u32, size: u32) -> u32 {
        let at = self.position(number);
        let in_session = self.in_session();
        let old = self.rank(&self.orders[at]);
        let order = &mut self.orders[at];
        order.displayed -= size;
        if !order.filled_in_part {
            order.filled_in_part = true;
            self.fak_filled += (order.kind == OrderType::FaK) as usize;
        }
        if in_session && order.session_fill <= self.session.fills_before {
            order.session_fill = self.fills;
        }
        if order.displayed > 0 {
            return order.displayed;
        }
        let moved = order.shown.min(order.reserve);
        if moved == 0 {
            let completed = &mut self.session.completed[order.side as usize][order.trader as usize];
            if in_session && *completed == 0 {
                *completed = self.fills;
            }
            self.leave(at, Gone::FilledWhole);
            return 0;
        }
        order.displayed = moved;
        order.reserve -= moved;
        self.stamps += 1;
        order.stamp = self.stamps;
        self.move_in_queue(at, old);
        moved
    }

    // ---- removals and time ----------------------------------------------------------------

    fn remove_spent(&mut self) -> Option<Record> {
        let outside = !self.in_session();
        if self.faki == 0 && (self.fak_filled == 0 || !outside) {
            return None;
        }
        let (at, cause) =
            self.orders
                .iter()
                .enumerate()
                .find_map(|(at, order)| match order.kind {
                    OrderType::FaKI => Some((at, Cause::FaKI)),
                    OrderType::FaK if order.filled_in_part && outside => Some((at, Cause::FaK)),
                    _ => None,
                })?;
        Some(self.remove(at, cause))
    }

    fn remove(&mut self, at: usize, cause: Cause) -> Record {
        let order = self.leave(at, Gone::Withdrawn);
        Record::Removal {
            order: order.number,
            displayed: order.displayed,
            cause,
        }
    }

    fn phase_end(&self) -> Option<u64> {
        match self.phase {
            Phase::Open => None,
            Phase::Timed => Some(self.phase_began + self.settings.timed),
            Phase::Rolling => Some(
                self.phase_began
                    .max(self.session.last_fill_time + self.settings.rolling),
            ),
            Phase::Fbs => Some(self.phase_began + self.settings.fbs),
        }
    }

    fn reach_moment(&mut self) -> Option<Record> {
        let wished = self.wished;
        let phase_end = self.phase_end().filter(|&time| time <= wished);
        let end = self.ends.first().filter(|&(time, _)| time <= wished);
        match (phase_end, end) {
            (Some(time), None) => Some(self.end_phase(time)),
            (Some(time), Some((end, _))) if time <= end => Some(self.end_phase(time)),
            (_, Some((end, number))) => {
                self.time = end;
                Some(self.remove(self.position(number), Cause::EndTime))
            }
            (None, None) => None,
        }
    }

    fn enter(&mut self, phase: Phase) {
        self.phase = phase;
        self.phase_began = self.time;
    }

    fn end_phase(&mut self, time: u64) -> Record {
        self.time = time;
        match self.phase {
            Phase::Timed => {
                self.enter(Phase::Rolling);
                Record::Rolling
            }
            Phase::Rolling => {
                self.settle_privileges();
                self.enter(Phase::Fbs);
                self.rank_all();
                Record::Fbs
            }
            Phase::Fbs | Phase::Open => {
                self.enter(Phase::Open);
                self.rank_all();
                Record::Open
            }
        }
    }

    fn rest(&mut self) -> Record {
        self.time = self.wished;
        self.quiet = true;
        Record::Quiet
    }

    // ---- privileges -----------------------------------------------------------------------

    fn settle_privileges(&mut self) {
        self.privileges.clear();
        self.settle_priority_1();
        self.settle_priority_2();
        // By rising number, so the lowest-numbered order entered after the fill carries it.
        for order in &self.orders {
            if let Some(privilege) = self.privileges.get_mut(order.trader, order.side) {
                if privilege.carrier.is_none() && order.entered_after >= privilege.earned {
                    privilege.carrier = Some(order.number);
                }
            }
        }
    }

    /// To each trader with a live order that had a fill in the session; the earliest carries.
    fn settle_priority_1(&mut self) {
        let before = self.session.fills_before;
        for order in self
            .orders
            .iter()
            .filter(|order| order.session_fill > before)
        {
            let privilege = self.privileges.get_mut(order.trader, order.side);
            if privilege.is_none_or(|found| order.session_fill < found.earned) {
                *privilege = Some(Privilege {
                    priority: Priority::One,
                    earned: order.session_fill,
                    carrier: Some(order.number),
                });
            }
        }
    }

    /// To each trader without Priority 1 who had an order filled whole; free for now.
    fn settle_priority_2(&mut self) {
        for side in Side::BOTH {
            for trader in 1..=MAX_TRADER {
                let earned = self.session.completed[side as usize][trader as usize];
                let privilege = self.privileges.get_mut(trader, side);
                if earned != 0 && privilege.is_none() {
                    let priority = Priority::Two;
                    *privilege = Some(Privilege {
                        priority,
                        earned,
                        carrier: None,
                    });
                }
            }
        }
    }
}

/// A price as it sorts: the better is the lower. Its own inverse.
fn sort_price(side: Side, price: i32) -> i32 {
    match side {
        Side::Bid => -price,
        Side::Offer => price,
    }
}

fn check_trader(trader: u8) -> Result<(), Refusal> {
    if (1..=MAX_TRADER).contains(&trader) {
        Ok(())
    } else {
        Err(Refusal::Trader)
    }
}
