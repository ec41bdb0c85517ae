//! Choices of crash points: what counted loads ask of them, and which explain all loads.

use super::machine::{Load, Machine, Store};
use super::order::Precedence;
use crate::types::CUT;

/// What one counted load asks of a choice: "The choice explains the load if the observed store is in and no forbidden
/// one is."
pub struct Demand {
    observed: Option<usize>,
    forbidden: Vec<usize>,
}

/// "A counted load with source s *observes* s (unless s is 0) and *forbids* every store to its location in earlier
/// stretches that is in a later stretch than s, or in s's stretch and committed after s; with source 0, all of them."
pub fn demand_of(machine: &Machine, load: &Load) -> Demand {
    let observed = machine.store_of(load.source);
    let forbids = |p: &Store| {
        p.location == load.location
            && p.stretch < load.stretch
            && match observed.map(|source| &machine.stores[source]) {
                Some(s) => p.stretch > s.stretch || p.stretch == s.stretch && committed_after(p, s),
                None => true,
            }
    };
    let forbidden = (0..machine.stores.len()).filter(|&store| forbids(&machine.stores[store])).collect();
    Demand { observed, forbidden }
}

/// "committed after s"
fn committed_after(p: &Store, s: &Store) -> bool {
    matches!((p.commit, s.commit), (Some(later), Some(earlier)) if later > earlier)
}

/// "stretch j, thread t stands at 8 x (j - 1) + t"
fn place_of(store: &Store) -> usize {
    8 * (usize::from(store.stretch) - 1) + usize::from(store.thread)
}

/// Some counted loads taken together: what they observe and forbid, and what must be in for it.
pub struct Explanation {
    pub observed: Vec<bool>,
    pub forbidden: Vec<bool>,
    inside: Vec<bool>,
}

impl Explanation {
    /// No loads, so nothing is observed, forbidden or in.
    pub fn new(machine: &Machine) -> Self {
        let none = vec![false; machine.stores.len()];
        Explanation { observed: none.clone(), forbidden: none.clone(), inside: none }
    }

    /// Marks what a load observes and forbids.
    pub fn mark(&mut self, demand: &Demand) {
        demand.observed.into_iter().for_each(|store| self.observed[store] = true);
        demand.forbidden.iter().for_each(|&store| self.forbidden[store] = true);
    }

    /// Adds a load. "It is closed if each store before one that is in is in too": so what it observes is in, and each
    /// store before that.
    pub fn add(&mut self, demand: &Demand, precedence: &Precedence) {
        self.mark(demand);
        if let Some(store) = demand.observed {
            self.inside[store] = true;
            precedence.gather(store, &mut self.inside);
        }
    }

    /// Whether a store that must be in is forbidden.
    pub fn fails(&self) -> bool {
        self.inside.iter().zip(&self.forbidden).any(|(&inside, &forbidden)| inside && forbidden)
    }

    /// The count of each finished stretch and thread: how many of its stores must be in.
    pub fn counts(&self, machine: &Machine) -> [u16; CUT] {
        let mut cut = [0; CUT];
        for (store, _) in machine.stores.iter().zip(&self.inside).filter(|(_, &inside)| inside) {
            cut[place_of(store)] += 1;
        }
        cut
    }
}

/// "A choice gives each finished stretch and thread a count (the thread's crash point), at most its commits there". The
/// commits of each place.
fn commits(machine: &Machine) -> [u16; CUT] {
    let mut commits = [0; CUT];
    let finished = |store: &&Store| store.commit.is_some() && store.stretch < machine.stretch;
    for store in machine.stores.iter().filter(finished) {
        commits[place_of(store)] += 1;
    }
    commits
}

/// The number of choices of a trace, or some number above the limit if there are more.
pub fn count(machine: &Machine, limit: usize) -> usize {
    let mut product: usize = 1;
    for commits in commits(machine) {
        product *= usize::from(commits) + 1;
        if product > limit {
            break;
        }
    }
    product
}

/// "that many of its first stores are in": how many stores its thread issued before it in its stretch, for each store.
fn turns(machine: &Machine) -> Vec<u16> {
    let mut issued = [0; CUT + 8];
    let mut next = |store: &Store| {
        let turn = issued[place_of(store)];
        issued[place_of(store)] += 1;
        turn
    };
    machine.stores.iter().map(&mut next).collect()
}

/// Tries every choice. "Robust: a closed choice explains all counted loads." Gives "the least (every other such choice
/// has at least its count at every place)", or `None` if no closed choice explains them.
pub fn all_choices(machine: &Machine, precedence: &Precedence, demands: &[Demand]) -> Option<[u16; CUT]> {
    let (most, turns) = (commits(machine), turns(machine));
    let before: Vec<Vec<bool>> = (0..turns.len()).map(|q| precedence.all_before(q)).collect();
    let mut inside = vec![false; turns.len()];
    let mut smallest: Option<[u16; CUT]> = None;
    let mut explaining = Vec::new();
    let mut next = Some([0; CUT]);
    while let Some(choice) = next {
        for (number, store) in machine.stores.iter().enumerate() {
            inside[number] = choice.get(place_of(store)).is_some_and(|&count| turns[number] < count);
        }
        if explains(demands, &inside) && closed(&before, &inside) {
            smallest = Some(smallest.map_or(choice, |other| std::array::from_fn(|at| other[at].min(choice[at]))));
            explaining.push(choice);
        }
        next = successor(choice, &most);
    }
    assert!(smallest.is_none_or(|least| explaining.contains(&least)), "there is no least choice");
    smallest
}

/// "The choice explains the load if the observed store is in and no forbidden one is." Of all counted loads.
fn explains(demands: &[Demand], inside: &[bool]) -> bool {
    demands.iter().all(|demand| {
        demand.observed.is_none_or(|store| inside[store]) && !demand.forbidden.iter().any(|&store| inside[store])
    })
}

/// "It is closed if each store before one that is in is in too."
fn closed(before: &[Vec<bool>], inside: &[bool]) -> bool {
    let closed_at = |q: usize| !inside[q] || before[q].iter().zip(inside).all(|(&before, &inside)| !before || inside);
    (0..inside.len()).all(closed_at)
}

/// The choice that is tried next; `None` behind the last.
fn successor(mut choice: [u16; CUT], most: &[u16; CUT]) -> Option<[u16; CUT]> {
    for (count, &most) in choice.iter_mut().zip(most) {
        if *count < most {
            *count += 1;
            return Some(choice);
        }
        *count = 0;
    }
    None
}

#[cfg(test)]
mod tests {
    use super::*;

    #[test]
    fn every_choice_is_tried_once() {
        let mut most = [0; CUT];
        (most[0], most[9], most[55]) = (2, 1, 3);
        let mut tried = Vec::new();
        let mut next = Some([0; CUT]);
        while let Some(choice) = next {
            assert!(!tried.contains(&choice) && choice.iter().zip(&most).all(|(count, most)| count <= most));
            tried.push(choice);
            next = successor(choice, &most);
        }
        assert_eq!(tried.len(), 3 * 2 * 4);
    }

    #[test]
    fn closed_and_explains() {
        let before = vec![vec![false, false], vec![true, false]];
        assert!(closed(&before, &[false, false]) && closed(&before, &[true, false]) && closed(&before, &[true, true]));
        assert!(!closed(&before, &[false, true]));
        let demands = [Demand { observed: Some(1), forbidden: vec![0] }];
        assert!(explains(&demands, &[false, true]));
        assert!(!explains(&demands, &[true, true]) && !explains(&demands, &[false, false]));
    }
}
