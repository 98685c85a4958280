//! A market that moves: its instruments, their books, and the entries that change them.

use crate::datagram::{Action, Entry, Level};
use crate::random::Random;
use crate::shape::Shape;
use std::collections::BTreeSet;

/// A price of one, in units of 10^-9.
const ONE: i64 = 1_000_000_000;

/// How many expiries of one product there are.
const EXPIRIES: usize = 8;

/// How many levels the exchange keeps of a direct side, where an instrument's line says nothing else.
pub const DEPTH: usize = 10;

/// How many levels an implied side has at most.
const IMPLIED_DEPTH: usize = 2;

/// Tells whether a side is one of bids.
fn is_bid(side: usize) -> bool {
    side & 1 == 0
}

/// An instrument and its book.
pub struct Security {
    pub id: i32,
    pub name: String,
    /// The places of the legs, bought and sold.
    pub legs: Option<(usize, usize)>,
    /// Bids, offers, implied bids, implied offers.
    pub sides: [Vec<Level>; 4],
    /// How many levels a direct side has at most.
    most_levels: usize,
    tick: i64,
    /// Where its prices begin.
    middle: i64,
    /// How often it trades.
    weight: u32,
}

impl Security {
    fn outright(place: usize, most_levels: usize, random: &mut Random) -> Security {
        const MONTHS: [char; 4] = ['H', 'M', 'U', 'Z'];
        let (product, expiry) = (place / EXPIRIES, place % EXPIRIES);
        let letter = |number: usize| char::from(b'A' + (number % 26) as u8);
        let name =
            format!("{}{}{}{}", letter(4 + product / 26), letter(18 + product), MONTHS[expiry % 4], 6 + expiry / 4);
        let middle = 3_100 + (650 * product as i64) % 9_100 + 12 * expiry as i64;
        Security {
            id: (2_000 + 41 * place + random.below(25)) as i32,
            name,
            legs: None,
            sides: Default::default(),
            most_levels,
            tick: ONE / 4,
            middle: middle * ONE,
            weight: 1_000_000 / (10 + 15 * expiry as u32 + 4 * product as u32),
        }
    }

    fn spread(place: usize, legs: (usize, usize), list: &[Security], shape: &Shape, random: &mut Random) -> Security {
        let (bought, sold) = (&list[legs.0], &list[legs.1]);
        // The spreads of a hub have the same legs, so that only a number tells them apart.
        let name = if shape.is_hub { format!("SP{}", place + 1) } else { format!("{}-{}", bought.name, sold.name) };
        Security {
            id: (200_000 + 61 * place + random.below(40)) as i32,
            name,
            legs: Some(legs),
            sides: Default::default(),
            most_levels: shape.spread_levels,
            tick: ONE / 20,
            middle: bought.middle - sold.middle,
            weight: 350_000 / (10 + place as u32),
        }
    }

    /// Tells whether a price of a side is better than another.
    fn is_better(side: usize, price: i64, other: i64) -> bool {
        if is_bid(side) { price > other } else { price < other }
    }

    /// Gives the step of one tick away from the other side.
    fn away(&self, side: usize) -> i64 {
        if is_bid(side) { -self.tick } else { self.tick }
    }

    fn best(&self, side: usize) -> Option<Level> {
        self.sides[side].first().copied()
    }

    /// Gives how many levels the exchange keeps of a direct side: always ten of a spread's.
    pub fn depth(&self) -> usize {
        if self.legs.is_some() { DEPTH } else { self.most_levels }
    }

    /// Tells whether a new level may come into the middle of a side: there is room, or the exchange drops the last one.
    fn takes_one_more(&self, side: usize) -> bool {
        self.sides[side].len() < self.most_levels || self.most_levels == self.depth()
    }
}

/// Chooses two expiries of one product, at most three apart, that are no pair yet.
fn new_pair(outrights: usize, pairs: &mut BTreeSet<(usize, usize)>, random: &mut Random) -> (usize, usize) {
    loop {
        let bought = random.below(outrights);
        let sold = bought + 1 + random.below(3);
        if sold / EXPIRIES == bought / EXPIRIES && sold < outrights && pairs.insert((bought, sold)) {
            return (bought, sold);
        }
    }
}

pub struct Market {
    pub list: Vec<Security>,
    random: Random,
    is_deep: bool,
    is_hub: bool,
    weights: Vec<u32>,
    /// Of each security the spreads of which it is a leg.
    spreads_of: Vec<Vec<usize>>,
}

impl Market {
    pub fn new(shape: &Shape, seed: u64) -> Market {
        let mut random = Random::new(seed, "market");
        let mut list: Vec<Security> =
            (0..shape.outrights).map(|place| Security::outright(place, shape.outright_levels, &mut random)).collect();
        let mut spreads_of = vec![Vec::new(); shape.outrights + shape.spreads];
        let mut pairs = BTreeSet::new();
        for place in 0..shape.spreads {
            let (bought, sold) = match shape.is_hub {
                true => (place % 2, 1 - place % 2),
                false => new_pair(shape.outrights, &mut pairs, &mut random),
            };
            spreads_of[bought].push(list.len());
            spreads_of[sold].push(list.len());
            let spread = Security::spread(place, (bought, sold), &list, shape, &mut random);
            list.push(spread);
        }
        let weights = list.iter().map(|security| security.weight).collect();
        Market { list, random, is_deep: shape.is_deep, is_hub: shape.is_hub, weights, spreads_of }
    }

    pub fn is_hub(&self) -> bool {
        self.is_hub
    }

    pub fn random(&mut self) -> &mut Random {
        &mut self.random
    }

    /// Gives the sides that are filled before the market moves, each as often as it gets a level, the last one first.
    /// In a hub the implied sides of all spreads come after the direct ones.
    pub fn opening(&self) -> Vec<(usize, usize)> {
        let levels = |security: &Security| match security.legs {
            Some(_) if !self.is_deep => security.most_levels.div_ceil(2),
            _ => security.most_levels,
        };
        let sides = |(place, security)| [0, 1].map(|side| std::iter::repeat_n((place, side), levels(security)));
        let direct = self.list.iter().enumerate().rev().flat_map(sides).flatten();
        let implied = if self.is_hub { self.spreads_of[0].as_slice() } else { &[] };
        let implied = implied.iter().rev().flat_map(|&place| [(place, 3), (place, 2)]);
        implied.chain(direct).collect()
    }

    /// Makes an entry for a side of the opening.
    pub fn opening_entry(&mut self, security: usize, side: usize) -> Entry {
        if side < 2 { self.append(security, side) } else { self.implied_entry(security, side) }
    }

    /// Chooses the securities of an event.
    pub fn securities_of_event(&mut self) -> Vec<usize> {
        const HOW_MANY: [u32; 3] = [62, 28, 10];
        const FOLLOWED_BY_A_SPREAD: u32 = 2_500;
        let mut chosen = Vec::new();
        for _ in 0..=self.random.pick(&HOW_MANY) {
            let security = self.random.pick(&self.weights);
            chosen.push(security);
            let spreads = &self.spreads_of[security];
            if self.random.happens(FOLLOWED_BY_A_SPREAD) && !spreads.is_empty() {
                chosen.push(spreads[self.random.below(spreads.len())]);
            }
        }
        chosen
    }

    /// Makes an entry for one of some securities.
    pub fn entry_for_one_of(&mut self, securities: &[usize]) -> Entry {
        let security = securities[self.random.below(securities.len())];
        let implied = match (self.is_deep, self.list[security].legs) {
            (true, _) => 0,
            (false, None) => 1_000,
            (false, Some(_)) => 6_000,
        };
        if self.random.happens(implied) {
            let side = 2 + self.random.below(2);
            self.implied_entry(security, side)
        } else if self.is_deep {
            self.deep_entry(security)
        } else {
            self.direct_entry(security)
        }
    }

    /// Makes the entries of an event in a hub: so many of the first outright, now and then with an implied one of a
    /// spread that stands on it.
    pub fn entries_of_hub(&mut self, count: usize) -> Vec<Entry> {
        const WITH_A_SPREAD: u32 = 2_500;
        let mut entries: Vec<Entry> = (0..count).map(|_| self.direct_entry(0)).collect();
        if self.random.happens(WITH_A_SPREAD) {
            let spreads = &self.spreads_of[0];
            let spread = spreads[self.random.below(spreads.len())];
            let side = 2 + self.random.below(2);
            entries.push(self.implied_entry(spread, side));
        }
        entries
    }

    /// Makes a new last level of a direct side.
    fn append(&mut self, security: usize, side: usize) -> Entry {
        let size = self.size();
        let ticks = if self.random.below(8) == 0 { 2 } else { 1 };
        let this = &self.list[security];
        let away = this.away(side);
        let price = match (this.sides[side].last(), this.best(1 - side)) {
            (Some(last), _) => last.price + ticks * away,
            // Bids stay below offers.
            (None, Some(other)) if !Security::is_better(1 - side, other.price, this.middle + away) => {
                other.price + away
            }
            (None, _) => this.middle + away,
        };
        let place = this.sides[side].len();
        self.enter(security, side, Action::New, place, Level { price, size })
    }

    /// Makes a size: mostly of one digit or two.
    fn size(&mut self) -> i32 {
        let digit = 1 + self.random.below(9) as i32;
        match self.random.pick(&[5, 3, 1, 1]) {
            0 => digit,
            1 => 10 * digit + self.random.below(10) as i32,
            2 => 100 * digit + self.random.below(100) as i32,
            _ => 17 * digit,
        }
    }

    /// Applies an entry to the book and gives it.
    fn enter(&mut self, security: usize, side: usize, action: Action, place: usize, level: Level) -> Entry {
        let this = &mut self.list[security];
        let depth = this.depth();
        let levels = &mut this.sides[side];
        match action {
            Action::New => {
                levels.insert(place, level);
                levels.truncate(if side < 2 { depth } else { IMPLIED_DEPTH });
            }
            Action::Change => levels[place] = level,
            Action::Delete => _ = levels.remove(place),
        }
        let Level { price, size } = if action == Action::Delete { Level { price: 0, size: 0 } } else { level };
        Entry { security: this.id, side, action, level: place as u8 + 1, price, size }
    }

    fn change_size(&mut self, security: usize, side: usize, place: usize) -> Entry {
        let level = Level { size: self.size(), ..self.list[security].sides[side][place] };
        self.enter(security, side, Action::Change, place, level)
    }

    fn delete(&mut self, security: usize, side: usize, place: usize) -> Entry {
        self.enter(security, side, Action::Delete, place, Level { price: 0, size: 0 })
    }

    /// Makes a new level one tick better than the one at a place, if nothing stands there and the side takes one more.
    fn insert(&mut self, security: usize, side: usize, place: usize) -> Option<Entry> {
        let this = &self.list[security];
        let price = this.sides[side][place].price - this.away(side);
        let is_free = match place {
            0 => this.best(1 - side).is_none_or(|other| Security::is_better(1 - side, price, other.price)),
            _ => Security::is_better(side, this.sides[side][place - 1].price, price),
        };
        if !is_free || !this.takes_one_more(side) {
            return None;
        }
        let level = Level { price, size: self.size() };
        Some(self.enter(security, side, Action::New, place, level))
    }

    /// Makes a new level at a place; where there is no price for it, another change of the side.
    fn insert_or_else(&mut self, security: usize, side: usize, place: usize) -> Entry {
        if let Some(entry) = self.insert(security, side, place) {
            return entry;
        }
        let this = &self.list[security];
        if this.sides[side].len() < this.most_levels {
            self.append(security, side)
        } else {
            self.delete(security, side, place)
        }
    }

    /// Makes a direct entry, more often near the top than below.
    fn direct_entry(&mut self, security: usize) -> Entry {
        let side = self.random.below(2);
        let count = self.list[security].sides[side].len();
        let most = self.list[security].most_levels;
        // Six tenths of its levels are there at least.
        if count < (most * 6).div_ceil(10) {
            return self.append(security, side);
        }
        if self.is_wide_open(security)
            && self.random.happens(3_500)
            && let Some(entry) = self.insert(security, side, 0)
        {
            return entry;
        }
        let mut place = 0;
        while place + 1 < count && self.random.happens(6_200) {
            place += 1;
        }
        match self.random.pick(&[52, 24, 14, 10]) {
            0 => self.change_size(security, side, place),
            1 => self.insert_or_else(security, side, place),
            2 => self.delete(security, side, place),
            _ if count < most => self.append(security, side),
            _ => self.change_size(security, side, count - 1),
        }
    }

    /// Tells whether best bid and best offer are more than two ticks apart.
    fn is_wide_open(&self, security: usize) -> bool {
        let this = &self.list[security];
        match (this.best(0), this.best(1)) {
            (Some(bid), Some(offer)) => offer.price - bid.price > 2 * this.tick,
            _ => false,
        }
    }

    /// Makes a direct entry at levels 5 to 10.
    fn deep_entry(&mut self, security: usize) -> Entry {
        const LEAST_LEVELS: usize = 8;
        let side = self.random.below(2);
        let count = self.list[security].sides[side].len();
        if count < LEAST_LEVELS {
            return self.append(security, side);
        }
        let place = 4 + self.random.below(count - 4);
        match self.random.pick(&[4, 3, 3]) {
            0 => self.change_size(security, side, place),
            1 if count > LEAST_LEVELS => self.delete(security, side, place),
            _ => self.insert_or_else(security, side, place),
        }
    }

    /// Gives the price and size that an implied quote goes by: what the legs make, or the security's own best level.
    fn implied_level(&mut self, security: usize, side: usize) -> Level {
        let size = self.size();
        let takes_size = self.random.happens(6_000);
        let this = &self.list[security];
        let own = this.middle + this.away(side);
        let Some((bought, sold)) = this.legs else {
            return Level { price: this.best(side - 2).map_or(own, |level| level.price), size };
        };
        match (self.list[bought].best(side - 2), self.list[sold].best(3 - side)) {
            (Some(bought), Some(sold)) => {
                let size = if takes_size { bought.size.min(sold.size) } else { size };
                Level { price: bought.price - sold.price, size }
            }
            _ => Level { price: own, size },
        }
    }

    /// Makes an implied entry of a side, near what the legs make.
    fn implied_entry(&mut self, security: usize, side: usize) -> Entry {
        let mut level = self.implied_level(security, side);
        let away = self.list[security].away(side);
        level.price += [-away, away, 0][self.random.pick(&[1, 2, 7])];
        let levels = self.list[security].sides[side].clone();
        let Some(&best) = levels.first() else {
            return self.enter(security, side, Action::New, 0, level);
        };
        match self.random.pick(&[4, 2, 3, 1]) {
            0 => {
                // The first level stays in front of the second.
                if let Some(second) =
                    levels.get(1).filter(|second| !Security::is_better(side, level.price, second.price))
                {
                    level.price = second.price - away;
                }
                self.enter(security, side, Action::Change, 0, level)
            }
            1 if Security::is_better(side, level.price, best.price) => {
                self.enter(security, side, Action::New, 0, level)
            }
            1 => {
                let action = if levels.len() == 1 { Action::New } else { Action::Change };
                self.enter(security, side, action, 1, Level { price: best.price + away, ..level })
            }
            2 => {
                let place = self.random.below(levels.len());
                self.delete(security, side, place)
            }
            _ => self.enter(security, side, Action::Change, 0, Level { price: best.price, ..level }),
        }
    }
}

#[cfg(test)]
mod tests {
    use super::*;

    /// Gives the market of a preset, with its books filled.
    fn opened(preset: &str) -> Market {
        let mut market = Market::new(&Shape::of_preset(preset).unwrap(), 5);
        for (security, side) in market.opening().into_iter().rev() {
            market.opening_entry(security, side);
        }
        market
    }

    /// Gives the most levels that a side of outrights, of spreads, and an implied side have while a market moves.
    fn most_levels(preset: &str) -> [usize; 3] {
        let mut market = opened(preset);
        let mut most = [0; 3];
        for _ in 0..20_000 {
            let securities = market.securities_of_event();
            market.entry_for_one_of(&securities);
            for security in securities.into_iter().map(|place| &market.list[place]) {
                for (side, levels) in security.sides.iter().enumerate() {
                    let which = if side > 1 { 2 } else { usize::from(security.legs.is_some()) };
                    most[which] = levels.len().max(most[which]);
                }
            }
        }
        most
    }

    #[test]
    fn books_have_as_many_levels_as_their_shape_says() {
        assert_eq!(most_levels("day"), [10, 10, 2]);
        assert_eq!(most_levels("silent"), [3, 3, 2]);
    }

    #[test]
    fn the_spreads_of_a_hub_have_the_same_legs() {
        let market = opened("one_leg");
        let spreads: Vec<&Security> = market.list.iter().filter(|security| security.legs.is_some()).collect();
        assert_eq!((market.list.len(), spreads.len()), (512, 510));
        assert!(spreads.iter().all(|spread| matches!(spread.legs, Some((0, 1) | (1, 0)))));
        let names: BTreeSet<&str> = market.list.iter().map(|security| security.name.as_str()).collect();
        assert_eq!(names.len(), 512);
        assert!(spreads.iter().all(|spread| spread.sides.each_ref().map(Vec::len) == [1; 4]));
    }

    #[test]
    fn an_event_of_a_hub_moves_the_first_outright() {
        let mut market = opened("one_leg");
        let first = market.list[0].id;
        let mut with_a_spread = 0;
        for _ in 0..4_000 {
            let entries = market.entries_of_hub(2);
            assert!(entries[..2].iter().all(|entry| entry.security == first && entry.side < 2));
            with_a_spread += entries.len() - 2;
            assert!(entries[2..].iter().all(|entry| entry.security >= 200_000 && entry.side >= 2));
        }
        assert!((900..1_100).contains(&with_a_spread), "{with_a_spread}");
    }
}
