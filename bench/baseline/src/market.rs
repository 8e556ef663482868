//! The vocabulary: sides, types, settings, records and refusals.

pub const MAX_PRICE: i32 = 1_000_000;
pub const MAX_SIZE: u32 = 1_000_000;
pub const MAX_TIME: u64 = 1_000_000_000_000;
pub const MAX_PERIOD: u64 = 60_000;
pub const MAX_TRADER: u8 = 128;
pub const MAX_LIVE: usize = 128;
pub const MAX_WRITES: u32 = 1_000_000;

#[derive(Clone, Copy, PartialEq, Eq, Debug)]
pub enum Side {
    Bid = 0,
    Offer = 1,
}

impl Side {
    pub const BOTH: [Side; 2] = [Side::Bid, Side::Offer];

    pub fn other(self) -> Side {
        match self {
            Side::Bid => Side::Offer,
            Side::Offer => Side::Bid,
        }
    }

    /// Higher is better for a bid, lower for an offer.
    pub fn better(self, price: i32, than: i32) -> bool {
        match self {
            Side::Bid => price > than,
            Side::Offer => price < than,
        }
    }
}

#[derive(Clone, Copy, PartialEq, Eq, Debug)]
pub enum OrderType {
    FaS,
    FaK,
    FaKI,
}

#[derive(Clone, Copy, PartialEq, Eq, Debug)]
pub enum Phase {
    Open,
    Timed,
    Rolling,
    Fbs,
}

pub struct Settings {
    pub lot: u32,
    pub timed: u64,
    pub rolling: u64,
    pub fbs: u64,
}

impl Settings {
    pub fn new(tenor: u64, timed: u64, rolling: u64, fbs: u64) -> Option<Settings> {
        let lot = match tenor {
            1 | 2 => 250,
            3 => 150,
            4 | 5 => 100,
            6 | 7 => 75,
            8..=12 => 50,
            13..=30 => 25,
            40 => 10,
            _ => return None,
        };
        let lawful = [timed, rolling, fbs]
            .iter()
            .all(|period| (1..=MAX_PERIOD).contains(period));
        lawful.then_some(Settings {
            lot,
            timed,
            rolling,
            fbs,
        })
    }
}

/// What an entry asks for.
#[derive(Clone, Copy, Debug)]
pub struct NewOrder {
    pub trader: u8,
    pub side: Side,
    pub kind: OrderType,
    pub price: i32,
    pub displayed: u32,
    pub reserve: u32,
    pub end: u64,
}

/// What a change writes.
#[derive(Clone, Copy, Debug)]
pub struct Rewrite {
    pub trader: u8,
    pub order: u32,
    pub price: i32,
    pub displayed: u32,
    pub reserve: u32,
}

#[derive(Clone, Copy, PartialEq, Eq, Debug)]
pub enum Cause {
    FaKI = 1,
    FaK = 2,
    EndTime = 3,
}

/// What a draw answers. The time is sent beside it.
#[derive(Clone, Copy, PartialEq, Eq, Debug)]
pub enum Record {
    Quiet,
    Fill {
        price: i32,
        size: u32,
        bid: u32,
        bid_displayed: u32,
        offer: u32,
        offer_displayed: u32,
    },
    Session {
        price: i32,
        passive: u32,
    },
    Rolling,
    Fbs,
    Open,
    Removal {
        order: u32,
        displayed: u32,
        cause: Cause,
    },
}

/// Why a call is turned down; the numbers are those of the reply.
#[derive(Clone, Copy, PartialEq, Eq, Debug)]
pub enum Refusal {
    Incomplete = 2,
    Version = 3,
    Kind = 4,
    Length = 5,
    SideOrType = 6,
    NotQuiet = 7,
    Time = 8,
    Trader = 9,
    NoSuchOrder = 10,
    Price = 11,
    Size = 12,
    EndTime = 13,
    BetterThanP = 14,
    OwnOrder = 15,
    TooManyWrites = 16,
    TooManyOrders = 17,
    LineFull = 18,
}
