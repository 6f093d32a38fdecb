//! Steps with a gap in their facts, to show that the check finds it: a class of facts left
//! out, or bounds named that are not the ones the step rests on.

use super::*;
use Class::*;

/// The classes of facts in A7's list.
#[derive(Clone, Copy, Debug, PartialEq, Eq, PartialOrd, Ord)]
pub enum Class {
    /// The courses fixed in the step's term; under rule 11, in any.
    Fixed,
    /// The courses that don't list the step's term.
    Unlisted,
    /// The other unlisted pairs. Without them, a walk rests on its own term's alone.
    UnlistedElsewhere,
    /// A bound of every other term; under rule 11, of every term.
    Others,
    /// The bound of the step's term that the rule uses, of this side; rule 12 uses both.
    Own(Side),
    /// The bound crossed.
    Crossed,
}

impl Class {
    /// The class of a step's fact. Every fact is of one.
    pub fn of(fact: &Fact, told: &Told) -> Class {
        let is_own = |term: usize| told.step.term() == Some(term);
        match *fact {
            Fact::In { .. } => Fixed,
            Fact::NotIn { term, .. } if is_own(term) => Unlisted,
            Fact::NotIn { .. } => UnlistedElsewhere,
            Fact::Bound { term, .. } if !is_own(term) => Others,
            Fact::Bound { quantity, side, .. } => {
                let crossed = told.way.crosses() == Some(side);
                if crossed && quantity == altered_by(told.step.rule) {
                    Crossed
                } else {
                    Own(side)
                }
            }
        }
    }

    /// Its facts are bounds.
    pub fn is_of_bounds(self) -> bool {
        match self {
            Fixed | Unlisted | UnlistedElsewhere => false,
            Others | Own(_) | Crossed => true,
        }
    }
}

impl Way {
    /// The side of the bound that is crossed, if one is.
    fn crosses(self) -> Option<Side> {
        match self {
            Way::CrossingByRaising => Some(Side::High),
            Way::CrossingByLowering => Some(Side::Low),
            Way::Raising | Way::Lowering | Way::Negative | Way::NotReaching => None,
            Way::Strike | Way::StrikeByWeight | Way::StrikeByFiring | Way::Fixing => None,
            Way::FixedExceedsHighCount | Way::FixedPlusOpenBelowLowCount => None,
            Way::POverHighCredits | Way::QuotientOverTerms | Way::FiresOnAllOpen => None,
        }
    }
}

/// What the bounds are of that a rule raises or lowers.
fn altered_by(rule: u8) -> Quantity {
    match rule {
        1 | 2 | 8 | 9 => Quantity::Credits,
        4..=7 => Quantity::Count,
        _ => panic!("rule {rule} raises and lowers nothing"),
    }
}

/// The classes of the facts that a rule's steps of one way rest on, as A7 lists them.
pub fn classes(rule: u8, way: Way) -> Vec<Class> {
    let mut classes = match (rule, way) {
        (2 | 5, _) => vec![Others],
        (6..=9, _) => {
            let side = if matches!(rule, 6 | 8) { Side::Low } else { Side::High };
            vec![Unlisted, UnlistedElsewhere, Others, Own(side)]
        }
        (11, _) => vec![Fixed, Others],
        (12, _) => vec![Fixed, Unlisted, Own(Side::Low), Own(Side::High)],
        (_, Way::Raising | Way::CrossingByRaising) => vec![Fixed],
        (_, Way::Lowering | Way::CrossingByLowering) => vec![Unlisted],
        (_, Way::Strike | Way::FixedExceedsHighCount) => vec![Fixed, Own(Side::High)],
        (_, Way::Fixing | Way::FixedPlusOpenBelowLowCount) => vec![Unlisted, Own(Side::Low)],
        _ => panic!("rule {rule} has no step by {way:?}"),
    };
    classes.extend(way.crosses().map(|_| Crossed));
    classes
}

/// The classes that A7 lists although the step would follow without them: where rule 12 only
/// compares what is fixed with high credits, as rules 3 and 11 do.
pub fn needless(rule: u8, way: Way) -> Vec<Class> {
    match (rule, way) {
        (12, Way::StrikeByWeight | Way::POverHighCredits) => vec![Unlisted, Own(Side::Low)],
        _ => vec![],
    }
}

/// What can be amiss with the facts of a step.
#[derive(Clone, Copy, Debug, PartialEq, Eq)]
pub enum Gap {
    LeftOut(Class),
    /// The bounds of the class are those of the opposite side, as they stand.
    OppositeSide(Class),
    /// The bound of the step's own term in place of the other terms'.
    OwnForOthers,
}

impl Gap {
    /// The gaps that the facts of a rule's steps of one way can have, needless ones left out.
    pub fn all(rule: u8, way: Way) -> Vec<Gap> {
        let mut classes = classes(rule, way);
        classes.retain(|class| !needless(rule, way).contains(class));
        let bounds = classes.iter().copied().filter(|class| class.is_of_bounds());
        let opposite = bounds.map(Gap::OppositeSide);
        let mut gaps: Vec<Gap> =
            classes.iter().copied().map(Gap::LeftOut).chain(opposite).collect();
        if matches!(rule, 2 | 5) {
            gaps.push(Gap::OwnForOthers);
        }
        gaps
    }

    /// The step with this gap in its facts. What facts it has still hold.
    pub fn put_in(self, told: &Told) -> Told {
        let mut with_gap = told.clone();
        let facts = told.step.facts.iter();
        with_gap.step.facts = facts.filter_map(|fact| self.put_in_fact(fact, told)).collect();
        with_gap
    }

    /// What is left of a fact.
    fn put_in_fact(self, fact: &Fact, told: &Told) -> Option<Fact> {
        let class = Class::of(fact, told);
        match (self, *fact) {
            (Gap::LeftOut(left_out), _) => (class != left_out).then_some(*fact),
            (Gap::OppositeSide(turned), Fact::Bound { term, quantity, side, .. })
                if class == turned =>
            {
                Some(Fact::of_bound(&told.before, term, quantity, side.opposite()))
            }
            (Gap::OwnForOthers, Fact::Bound { quantity, side, .. }) if class == Others => {
                let own = told.step.term().expect("a term that has others");
                Some(Fact::of_bound(&told.before, own, quantity, side))
            }
            (Gap::OppositeSide(_) | Gap::OwnForOthers, _) => Some(*fact),
        }
    }
}
