//! The route checker.

use std::fmt;

use crate::face;
use crate::{Cell, FlagLayer};

/// Whether blocked cells are avoided.
#[derive(Clone, Copy, PartialEq, Eq, Hash, Debug)]
pub enum Rule {
    /// All cells may be entered.
    Free = 0,
    /// No cell may be entered that is blocked in the flag layer.
    Avoiding = 1,
}

/// A route as it is claimed: its cells, the ends it should have, and what it should cost, which is the sum
/// of its steps from 0.0 on, in route order.
#[derive(Clone, Copy, PartialEq, Debug)]
pub struct Claim<'r> {
    /// The cells, the first and the last included.
    pub route: &'r [Cell],
    /// Where it should begin.
    pub start: Cell,
    /// Where it should end.
    pub goal: Cell,
    /// What it should cost, to the bit.
    pub cost: f64,
}

impl Claim<'_> {
    fn lent(&self) -> face::Claimed<'_> {
        (self.route, &self.start, &self.goal, self.cost.to_bits())
    }
}

/// What the checker says of a route. Nothing but [`Accepted`](Verdict::Accepted) is leave to fly.
///
/// It is the first that fits, in the order in which they stand here.
/// `BadList`, `BadLayer` and `BadRule` cannot be met through this crate, since its types rule them out.
#[derive(Clone, Copy, PartialEq, Eq, Hash, Debug)]
#[must_use]
pub enum Verdict {
    /// The route begins at the start, ends at the goal, steps from neighbour to neighbour, enters no
    /// cell that is blocked in the layer (under [`Rule::Avoiding`]), and costs what it claims.
    Accepted,
    /// The bytes of the route or of an end are not cells.
    BadList,
    /// The table and its count are not a layer.
    BadLayer,
    /// The rule is neither of the two.
    BadRule,
    /// The route has no cell.
    EmptyRoute,
    /// It begins elsewhere.
    WrongStart,
    /// A step leads to a cell that is not one of the 14 around the last one.
    NotANeighbor,
    /// A step enters a blocked cell. The start itself is not tested.
    BlockedCell,
    /// It ends elsewhere.
    WrongGoal,
    /// It costs something else.
    WrongCost,
    /// A number that this crate does not know: the archive is another version's.
    Other(u32),
}

impl Verdict {
    fn of(number: u32) -> Verdict {
        match number {
            0 => Verdict::Accepted,
            13 => Verdict::BadList,
            14 => Verdict::BadLayer,
            15 => Verdict::BadRule,
            20 => Verdict::EmptyRoute,
            21 => Verdict::WrongStart,
            22 => Verdict::NotANeighbor,
            23 => Verdict::BlockedCell,
            24 => Verdict::WrongGoal,
            25 => Verdict::WrongCost,
            number => Verdict::Other(number),
        }
    }

    /// The verdict's number in include/tishkolan.h.
    pub const fn number(self) -> u32 {
        match self {
            Verdict::Accepted => 0,
            Verdict::BadList => 13,
            Verdict::BadLayer => 14,
            Verdict::BadRule => 15,
            Verdict::EmptyRoute => 20,
            Verdict::WrongStart => 21,
            Verdict::NotANeighbor => 22,
            Verdict::BlockedCell => 23,
            Verdict::WrongGoal => 24,
            Verdict::WrongCost => 25,
            Verdict::Other(number) => number,
        }
    }
}

impl fmt::Display for Verdict {
    fn fmt(&self, to: &mut fmt::Formatter<'_>) -> fmt::Result {
        match self {
            Verdict::Accepted => to.write_str("accepted"),
            Verdict::BadList => to.write_str("the bytes are not a list of cells"),
            Verdict::BadLayer => to.write_str("the table and its count are not a layer"),
            Verdict::BadRule => to.write_str("the rule is neither of the two"),
            Verdict::EmptyRoute => to.write_str("the route is empty"),
            Verdict::WrongStart => to.write_str("the route begins elsewhere"),
            Verdict::NotANeighbor => to.write_str("a step does not lead to a neighbour"),
            Verdict::BlockedCell => to.write_str("a step enters a blocked cell"),
            Verdict::WrongGoal => to.write_str("the route ends elsewhere"),
            Verdict::WrongCost => to.write_str("the route costs something else"),
            Verdict::Other(number) => {
                write!(to, "verdict {number}, which this crate does not know")
            }
        }
    }
}

/// The verdict on a route under a rule and a flag layer. It depends on what is handed to this very call
/// and on nothing else.
///
/// ```
/// use tishkolan::{route_verdict, Cell, Claim, Coord, FlagLayer, Flags, Refusal, Rule, Verdict};
///
/// let at = |x, y, z| Cell::from_coords(0, 3, Coord::new(x, y, z)).unwrap();
/// let route = [at(0, 0, 0), at(1, 1, 1), at(2, 2, 0)];
/// let cost = 0.0 + route[0].distance(&route[1])? + route[1].distance(&route[2])?;
/// let claim = Claim { route: &route, start: route[0], goal: route[2], cost };
///
/// let mut table = [0; FlagLayer::bytes(1)];
/// let mut flags = FlagLayer::new(&mut table);
/// assert_eq!(route_verdict(&claim, &flags, Rule::Avoiding), Verdict::Accepted);
/// flags.set(&route[1], Flags::BLOCKED)?;
/// assert_eq!(route_verdict(&claim, &flags, Rule::Avoiding), Verdict::BlockedCell);
/// assert_eq!(route_verdict(&claim, &flags, Rule::Free), Verdict::Accepted);
/// # Ok::<(), Refusal>(())
/// ```
pub fn route_verdict(claim: &Claim<'_>, flags: &FlagLayer<'_>, rule: Rule) -> Verdict {
    Verdict::of(face::route_verdict(claim.lent(), flags.lent(), rule as u32))
}

/// What the flight loop flies.
#[derive(Clone, Copy, PartialEq, Eq, Hash, Debug)]
#[must_use]
pub enum Choice {
    /// Neither route is accepted.
    Neither = 0,
    /// The sent route.
    Sent = 1,
    /// The homing route.
    Homing = 2,
}

/// The sent route if it is accepted, else the homing route if that one is, else neither. Each is judged
/// with its own ends and claimed cost, both under one rule and layer.
///
/// ```
/// use tishkolan::{route_choice, Cell, Choice, Claim, FlagLayer, Rule};
///
/// let here = Cell::default();
/// let stay = Claim { route: &[here], start: here, goal: here, cost: 0.0 };
/// let none = Claim { route: &[], ..stay };
/// let flags = FlagLayer::new(&mut []);
/// assert_eq!(route_choice(&stay, &stay, &flags, Rule::Avoiding), Choice::Sent);
/// assert_eq!(route_choice(&none, &stay, &flags, Rule::Avoiding), Choice::Homing);
/// assert_eq!(route_choice(&none, &none, &flags, Rule::Avoiding), Choice::Neither);
/// ```
pub fn route_choice(
    sent: &Claim<'_>,
    homing: &Claim<'_>,
    flags: &FlagLayer<'_>,
    rule: Rule,
) -> Choice {
    match face::route_choice(sent.lent(), homing.lent(), flags.lent(), rule as u32) {
        1 => Choice::Sent,
        2 => Choice::Homing,
        _ => Choice::Neither,
    }
}
