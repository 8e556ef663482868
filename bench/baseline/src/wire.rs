//! Calls from bytes, records and replies to bytes.

use crate::market::{NewOrder, OrderType, Record, Refusal, Rewrite, Side};

const VERSION: u8 = 1;
const HEAD: usize = 4;
const MAX_REFERENCE: usize = 16;

pub enum Call {
    Entry(NewOrder),
    Change(Rewrite),
    Cancel { trader: u8, order: u32 },
    Tick(u64),
    Draw,
}

/// What stands at the start of the input so far.
pub enum Frame {
    /// A whole message of this many bytes.
    Whole(usize),
    /// More bytes are needed.
    Part,
    /// The length is too small for any message.
    Short,
}

pub fn frame(data: &[u8]) -> Frame {
    if data.len() < HEAD {
        return Frame::Part;
    }
    let length = u16::from_be_bytes([data[0], data[1]]) as usize;
    match length {
        0 | 1 => Frame::Short,
        _ if data.len() < length + 2 => Frame::Part,
        _ => Frame::Whole(length + 2),
    }
}

/// Takes fields from the front of a message; the length has been checked.
struct Fields<'a>(&'a [u8]);

impl Fields<'_> {
    fn take<const N: usize>(&mut self) -> [u8; N] {
        let (field, rest) = self
            .0
            .split_first_chunk()
            .expect("the length fits the kind");
        self.0 = rest;
        *field
    }

    fn byte(&mut self) -> u8 {
        self.take::<1>()[0]
    }

    fn u32(&mut self) -> u32 {
        u32::from_be_bytes(self.take())
    }

    fn i32(&mut self) -> i32 {
        i32::from_be_bytes(self.take())
    }

    fn u64(&mut self) -> u64 {
        u64::from_be_bytes(self.take())
    }
}

/// Reads one whole message. Nobody looks at the reference, so it is left out.
pub fn read(message: &[u8]) -> Result<Call, Refusal> {
    let (version, kind, body) = (message[2], message[3], &message[HEAD..]);
    if version != VERSION {
        return Err(Refusal::Version);
    }
    let fits = match kind {
        1 => (23..=23 + MAX_REFERENCE).contains(&body.len()),
        2 => body.len() == 17,
        3 => body.len() == 5,
        4 => body.len() == 8,
        5 => body.is_empty(),
        _ => return Err(Refusal::Kind),
    };
    if !fits {
        return Err(Refusal::Length);
    }
    let mut fields = Fields(body);
    Ok(match kind {
        1 => Call::Entry(read_entry(&mut fields)?),
        2 => Call::Change(Rewrite {
            trader: fields.byte(),
            order: fields.u32(),
            price: fields.i32(),
            displayed: fields.u32(),
            reserve: fields.u32(),
        }),
        3 => Call::Cancel {
            trader: fields.byte(),
            order: fields.u32(),
        },
        4 => Call::Tick(fields.u64()),
        _ => Call::Draw,
    })
}

fn read_entry(fields: &mut Fields) -> Result<NewOrder, Refusal> {
    Ok(NewOrder {
        trader: fields.byte(),
        side: match fields.byte() {
            0 => Side::Bid,
            1 => Side::Offer,
            _ => return Err(Refusal::SideOrType),
        },
        kind: match fields.byte() {
            0 => OrderType::FaS,
            1 => OrderType::FaK,
            2 => OrderType::FaKI,
            _ => return Err(Refusal::SideOrType),
        },
        price: fields.i32(),
        displayed: fields.u32(),
        reserve: fields.u32(),
        end: fields.u64(),
    })
}

/// Appends a message: length, version, kind, and the fields that `fields` appends.
fn write(out: &mut Vec<u8>, kind: u8, fields: impl FnOnce(&mut Vec<u8>)) {
    let start = out.len();
    out.extend_from_slice(&[0, 0, VERSION, kind]);
    fields(out);
    let length = (out.len() - start - 2) as u16;
    out[start..start + 2].copy_from_slice(&length.to_be_bytes());
}

fn kind_of(record: Record) -> u8 {
    match record {
        Record::Quiet => 16,
        Record::Fill { .. } => 17,
        Record::Session { .. } => 18,
        Record::Rolling => 19,
        Record::Fbs => 20,
        Record::Open => 21,
        Record::Removal { .. } => 22,
    }
}

pub fn write_record(out: &mut Vec<u8>, time: u64, record: Record) {
    write(out, kind_of(record), |out| {
        out.extend_from_slice(&time.to_be_bytes());
        match record {
            Record::Quiet | Record::Rolling | Record::Fbs | Record::Open => {}
            Record::Fill {
                price,
                size,
                bid,
                bid_displayed,
                offer,
                offer_displayed,
            } => {
                out.extend_from_slice(&price.to_be_bytes());
                for field in [size, bid, bid_displayed, offer, offer_displayed] {
                    out.extend_from_slice(&field.to_be_bytes());
                }
            }
            Record::Session { price, passive } => {
                out.extend_from_slice(&price.to_be_bytes());
                out.extend_from_slice(&passive.to_be_bytes());
            }
            Record::Removal {
                order,
                displayed,
                cause,
            } => {
                out.extend_from_slice(&order.to_be_bytes());
                out.extend_from_slice(&displayed.to_be_bytes());
                out.push(cause as u8);
            }
        }
    });
}

/// The reply to an accepted call has the new order's number, or 0.
pub fn write_reply(out: &mut Vec<u8>, answer: Result<u32, Refusal>) {
    let (refusal, order) = match answer {
        Ok(order) => (0, order),
        Err(refusal) => (refusal as u8, 0),
    };
    write(out, 32, |out| {
        out.push(refusal);
        out.extend_from_slice(&order.to_be_bytes());
    });
}
