//! How the rules look at a job: which limit (`Side`), which events count
//! before or by the event at hand (`Order`), and both as the cover reads them
//! (`View`).
//!
//! Rules 3 to 14 come in four families of three. Rules 6 to 8 and 12 to 14 are
//! the mirror of 3 to 5 and 9 to 11: all amounts and the opening stock
//! negated, the limits exchanged and negated. `Side` is that mirror.

use crate::explanation::End;
use crate::job::{Cage, Cover, Job, Window};

/// Which limit a rule speaks of. `Upper` sees the job in the mirror.
#[derive(Clone, Copy, Debug, PartialEq, Eq)]
pub enum Side {
    Lower,
    Upper,
}

impl Side {
    /// Q as this side sees it.
    fn opening(self, cage: &Cage) -> i64 {
        self.turn(cage.opening)
    }

    /// Lmin as this side sees it.
    fn limit(self, cage: &Cage) -> i64 {
        match self {
            Side::Lower => cage.lower,
            Side::Upper => -cage.upper,
        }
    }

    /// h_max as this side sees it.
    pub fn most(self, window: &Window) -> i64 {
        match self {
            Side::Lower => window.h_max,
            Side::Upper => -window.h_min,
        }
    }

    /// A delivery as this side sees it.
    pub fn is_delivery(self, window: &Window) -> bool {
        match self {
            Side::Lower => window.h_min > 0,
            Side::Upper => window.h_max < 0,
        }
    }

    /// A pull as this side sees it.
    pub fn is_pull(self, window: &Window) -> bool {
        match self {
            Side::Lower => window.h_max < 0,
            Side::Upper => window.h_min > 0,
        }
    }

    /// The end that "h ≥" means on this side: the conclusion of rule 5.
    pub fn bound_end(self) -> End {
        match self {
            Side::Lower => End::Smallest,
            Side::Upper => End::Largest,
        }
    }

    /// The end that "h ≤" means on this side: the premise "h ≤ h_max".
    pub fn most_end(self) -> End {
        self.bound_end().opposite()
    }

    /// An amount turned into this side's, or back.
    pub fn turn(self, amount: i64) -> i64 {
        match self {
            Side::Lower => amount,
            Side::Upper => -amount,
        }
    }
}

/// Whether an event counts before e or by e.
#[derive(Clone, Copy, Debug, PartialEq, Eq)]
pub enum Order {
    Before,
    By,
}

/// Where an event y stands towards the event e at hand.
#[derive(Clone, Copy, Debug, PartialEq, Eq)]
pub enum Standing {
    Surely,
    /// Possibly, not surely.
    Possibly,
    Not,
}

impl Order {
    /// The minutes between y and e that "before" asks for and "by" does not:
    /// y is before (by) e when t(y) ≤ t(e) − step.
    pub fn step(self) -> i64 {
        match self {
            Order::Before => 1,
            Order::By => 0,
        }
    }

    /// How another event stands towards the one at hand.
    #[inline]
    pub fn standing(self, at: &Window, other: &Window) -> Standing {
        if other.t_max <= at.t_min - self.step() {
            Standing::Surely
        } else if other.t_min <= at.t_max - self.step() {
            Standing::Possibly
        } else {
            Standing::Not
        }
    }
}

/// One of the four families of three rules.
#[derive(Clone, Copy, Debug, PartialEq, Eq)]
pub struct Family {
    pub side: Side,
    pub order: Order,
}

impl Family {
    /// In the order of their numbers: 3 to 5, 6 to 8, 9 to 11, 12 to 14.
    pub const ALL: [Family; 4] = [
        Family::new(Side::Lower, Order::Before),
        Family::new(Side::Upper, Order::Before),
        Family::new(Side::Lower, Order::By),
        Family::new(Side::Upper, Order::By),
    ];

    const fn new(side: Side, order: Order) -> Family {
        Family { side, order }
    }

    /// The number of the family's first rule.
    pub fn first_number(self) -> i32 {
        match (self.order, self.side) {
            (Order::Before, Side::Lower) => 3,
            (Order::Before, Side::Upper) => 6,
            (Order::By, Side::Lower) => 9,
            (Order::By, Side::Upper) => 12,
        }
    }

    /// What a delivery counts by. Goods that can be pulled only from the next
    /// minute on count before e in rules 9 to 11 too; the high limit's rules
    /// keep their form.
    fn delivery_order(self, cover: Cover) -> Order {
        match (self.side, cover) {
            (Side::Lower, Cover::NextMinute) => Order::Before,
            _ => self.order,
        }
    }
}

/// The cage of the event at hand as the rules of one family see it. Deliveries
/// and pulls are meant as the side sees them.
#[derive(Clone, Copy, Debug)]
pub struct View<'a> {
    pub side: Side,
    /// What deliveries count by.
    pub deliveries: Order,
    /// What pulls count by.
    pub pulls: Order,
    /// Q.
    pub opening: i64,
    /// Lmin.
    pub limit: i64,
    /// The events of the cage, in event order: all that a rule counts, targets
    /// and quotes.
    pub members: &'a [usize],
}

impl<'a> View<'a> {
    /// The view that a family has from event e.
    pub fn new(job: &'a Job, family: Family, e: usize) -> View<'a> {
        let side = family.side;
        let cage = &job.cages[job.cage_of[e]];
        View {
            side,
            deliveries: family.delivery_order(cage.cover),
            pulls: family.order,
            opening: side.opening(cage),
            limit: side.limit(cage),
            members: &job.members[job.cage_of[e]],
        }
    }

    /// The events of the cage but e.
    pub fn others(&self, e: usize) -> impl Iterator<Item = usize> + 'a {
        self.members.iter().copied().filter(move |y| *y != e)
    }

    /// What an event counts by.
    #[inline]
    pub fn order(&self, window: &Window) -> Order {
        if self.side.is_delivery(window) {
            self.deliveries
        } else {
            self.pulls
        }
    }

    /// How y stands towards e. e itself is never before, always surely by.
    #[inline]
    pub fn standing(&self, windows: &[Window], e: usize, y: usize) -> Standing {
        let order = self.order(&windows[y]);
        if y != e {
            order.standing(&windows[e], &windows[y])
        } else if order == Order::By {
            Standing::Surely
        } else {
            Standing::Not
        }
    }
}
