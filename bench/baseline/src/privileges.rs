//! The privileges of the FBS Period, one at most for each trader and side.

use crate::market::{Side, MAX_TRADER};

#[derive(Clone, Copy, PartialEq, Eq, Debug)]
pub enum Priority {
    One,
    Two,
}

#[derive(Clone, Copy, Debug)]
pub struct Privilege {
    pub priority: Priority,
    /// The number of the fill that earned it.
    pub earned: u64,
    /// The order that carries it, or none while it is free.
    pub carrier: Option<u32>,
}

/// How an order leaves the book.
#[derive(Clone, Copy, PartialEq, Eq, Debug)]
pub enum Gone {
    FilledWhole,
    Withdrawn,
}

pub struct Privileges {
    table: [[Option<Privilege>; MAX_TRADER as usize + 1]; 2],
}

impl Default for Privileges {
    fn default() -> Self {
        Privileges {
            table: [[None; MAX_TRADER as usize + 1]; 2],
        }
    }
}

impl Privileges {
    pub fn clear(&mut self) {
        *self = Privileges::default();
    }

    pub fn get_mut(&mut self, trader: u8, side: Side) -> &mut Option<Privilege> {
        &mut self.table[side as usize][trader as usize]
    }

    /// The privilege that this order carries.
    pub fn carried(&self, trader: u8, side: Side, order: u32) -> Option<Privilege> {
        self.table[side as usize][trader as usize]
            .filter(|privilege| privilege.carrier == Some(order))
    }

    /// A new order takes the privilege if it is free.
    pub fn take(&mut self, trader: u8, side: Side, order: u32) {
        if let Some(privilege) = self.get_mut(trader, side) {
            privilege.carrier.get_or_insert(order);
        }
    }

    /// Ends the privilege if this order carries it.
    pub fn end(&mut self, trader: u8, side: Side, order: u32) {
        if self.carried(trader, side, order).is_some() {
            *self.get_mut(trader, side) = None;
        }
    }

    /// The order leaves: Priority 1 is free again, unless the order was filled whole.
    pub fn release(&mut self, trader: u8, side: Side, order: u32, gone: Gone) {
        match self.carried(trader, side, order) {
            Some(privilege) if privilege.priority == Priority::One && gone == Gone::Withdrawn => {
                *self.get_mut(trader, side) = Some(Privilege {
                    carrier: None,
                    ..privilege
                });
            }
            _ => self.end(trader, side, order),
        }
    }
}
