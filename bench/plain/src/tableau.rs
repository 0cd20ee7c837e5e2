//! Truth, conditions of links, start types and rounds, over families of W words.

use crate::closure::Member;
use crate::family::{self, Family};
use crate::formula::Modes;
use crate::Reading;

/// What one naming comes to: how many types at the start and after how many rounds, and the standing types.
#[derive(Clone, Copy)]
pub struct Settled<const W: usize> {
    pub start: u32,
    pub rounds: u32,
    pub standing: Family<W>,
}

/// The conditions of links along one mode: a type is linked to another unless it demands one that the other refuses.
#[derive(Clone)]
struct Way<const W: usize> {
    demands: Vec<Family<W>>,
    refusals: Vec<Family<W>>,
    /// The types that refuse some condition.
    refusing: Family<W>,
}

/// EX over one mode: its place in the closure, its mode, its body's place.
#[derive(Clone, Copy)]
struct Next {
    whole: usize,
    mode: usize,
    body: usize,
}

/// What EX over a mode asks: the types that have the need, and those that are asked for. All EX over a field are one: a link along the field
/// gives their bodies.
struct Ask<const W: usize> {
    mode: usize,
    holders: Family<W>,
    body: Family<W>,
}

/// EU (AU where `every` is true) by places.
#[derive(Clone, Copy)]
struct Until {
    whole: usize,
    every: bool,
    modes: Modes,
    left: usize,
    right: usize,
}

/// All that depends on the sheet alone, computed once for all its namings.
pub struct Tableau<const W: usize> {
    truth: Vec<Family<W>>,
    ways: Vec<Way<W>>,
    asks: Vec<Ask<W>>,
    untils: Vec<Until>,
    /// The types that make the globals true: those without a name, and those with one.
    free: Family<W>,
    named: Family<W>,
    names: Vec<usize>,
    places: usize,
    goal: usize,
}

impl<const W: usize> Tableau<W> {
    pub fn new(reading: &Reading) -> Self {
        let members = &reading.members[..];
        let truth = truth(members, &reading.lean);
        let (goal, globals) = reading.roots.split_last().expect("a sheet has a goal");
        let base = globals
            .iter()
            .fold(family::below(reading.lean.len()), |types, &g| {
                family::and(&types, &truth[usize::from(g)])
            });
        let some = reading.names.iter().fold(family::none(), |types, &p| {
            family::or(&types, &family::place(p))
        });
        Tableau {
            ways: ways(members, &truth),
            asks: asks(&nexts(members), &truth),
            untils: untils(members),
            free: family::less(&base, &some),
            named: family::and(&base, &some),
            names: reading.names.clone(),
            places: reading.lean.len(),
            goal: usize::from(*goal),
            truth,
        }
    }

    /// Rounds from the start types of a naming, until one strikes nothing.
    pub fn settle(&self, naming: u64) -> Settled<W> {
        let mut standing = self.start(naming);
        let start = family::size(&standing);
        let mut rounds = 0;
        loop {
            let after = self.round(&standing);
            if after == standing {
                return Settled {
                    start,
                    rounds,
                    standing,
                };
            }
            standing = after;
            rounds += 1;
        }
    }

    /// The least type of a family that has the goal.
    pub fn goal_type(&self, types: &Family<W>) -> Option<usize> {
        family::first(&family::and(types, &self.truth[self.goal]))
    }

    /// The one type that has a name under a naming: the name's set, with the name's place put in.
    fn named_type(&self, naming: u64, i: usize) -> usize {
        let bits = self.places - 1;
        let set = (naming >> (bits * i)) as usize & ((1 << bits) - 1);
        let v = self.names[i];
        ((set >> v) * 2 + 1) << v | set & ((1 << v) - 1)
    }

    fn obeys(&self, naming: u64, t: usize) -> bool {
        (0..self.names.len())
            .all(|i| t >> self.names[i] & 1 == 0 || t == self.named_type(naming, i))
    }

    /// The types without a name, and for each name its own type, if that obeys.
    fn start(&self, naming: u64) -> Family<W> {
        let mut types = self.free;
        for i in 0..self.names.len() {
            let t = self.named_type(naming, i);
            if family::has(&self.named, t) && self.obeys(naming, t) {
                types[t / 64] |= 1 << (t % 64);
            }
        }
        types
    }

    fn round(&self, family: &Family<W>) -> Family<W> {
        let mut kept = *family;
        for ask in &self.asks {
            self.follow(&mut kept, family, ask);
        }
        for until in &self.untils {
            let mut lacking = family::and(&kept, &self.truth[until.whole]);
            let good = self.good(family, &lacking, until);
            family::remove(&mut lacking, &good);
            family::remove(&mut kept, &lacking);
        }
        kept
    }

    /// Of some types, those stay that have not the need, or are linked along its mode to a type of `among` that is asked for.
    fn follow(&self, types: &mut Family<W>, among: &Family<W>, ask: &Ask<W>) {
        let mut lacking = family::and(types, &ask.holders);
        if family::is_empty(&lacking) {
            return;
        }
        let mut targets = family::and(among, &ask.body);
        self.ways[ask.mode].keep_unlinked(&mut lacking, &mut targets);
        family::remove(types, &lacking);
    }

    /// Grows the types with the right operand by those with the left one that have what the until asks against them, until none
    /// is added or all holders are in.
    fn good(&self, family: &Family<W>, holders: &Family<W>, until: &Until) -> Family<W> {
        let mut good = family::and(family, &self.truth[until.right]);
        let candidates = family::and(family, &self.truth[until.left]);
        while !family::is_empty(&family::less(holders, &good)) {
            let mut added = family::less(&candidates, &good);
            match until.every {
                true => self.every_step(&mut added, &good, until.modes),
                false => self.some_step(&mut added, &good, until.modes),
            }
            if family::is_empty(&added) {
                break;
            }
            family::add(&mut good, &added);
        }
        good
    }

    /// Of some types, those stay that are linked by one of the modes to a type of `good`.
    fn some_step(&self, types: &mut Family<W>, good: &Family<W>, modes: Modes) {
        let mut without = *types;
        let mut rest = modes;
        while rest != 0 {
            let way = &self.ways[rest.trailing_zeros() as usize];
            way.keep_unlinked(&mut without, &mut good.clone());
            rest &= rest - 1;
        }
        family::remove(types, &without);
    }

    /// Of some types, those stay in which every true EX over one of the modes has its next type in `good`.
    fn every_step(&self, types: &mut Family<W>, good: &Family<W>, modes: Modes) {
        let asked = self.asks.iter().filter(|ask| modes >> ask.mode & 1 == 1);
        asked.for_each(|ask| self.follow(types, good, ask));
    }
}

impl<const W: usize> Way<W> {
    /// Of some types, those stay that are linked to no target; the targets are used up. A type that refuses little stands for all targets that
    /// refuse as much and more: whoever is linked to one of those is linked to it. The first is taken as it comes: most calls end with it.
    #[inline(always)]
    fn keep_unlinked(&self, types: &mut Family<W>, targets: &mut Family<W>) {
        if !family::is_empty(&family::less(targets, &self.refusing)) {
            *types = family::none();
            return;
        }
        let mut next = family::first(targets).map(|t| self.refused(t));
        while let Some(refused) = next {
            family::keep(types, &some(&self.demands, refused));
            if family::is_empty(types) {
                return;
            }
            family::remove(targets, &every(&self.refusals, refused));
            next = family::first(targets).map(|t| self.smaller(targets, self.refused(t)));
        }
    }

    /// The conditions that a type refuses.
    fn refused(&self, t: usize) -> u32 {
        let bits = self.refusals.iter().enumerate();
        bits.fold(0, |set, (i, types)| {
            set | u32::from(family::has(types, t)) << i
        })
    }

    /// What some type of a set refuses, where another refuses `refused`: no more, and less where a type does.
    fn smaller(&self, set: &Family<W>, refused: u32) -> u32 {
        let all = (1 << self.refusals.len()) - 1;
        let mut refused = refused;
        while refused & refused.wrapping_sub(1) != 0 {
            let less = family::less(set, &every(&self.refusals, refused));
            let fewer = family::less(&less, &some(&self.refusals, all & !refused));
            match family::first(&fewer) {
                Some(t) => refused = self.refused(t),
                None => break,
            }
        }
        refused
    }
}

/// The types in some of the families of a set, and those in all of them.
fn some<const W: usize>(families: &[Family<W>], set: u32) -> Family<W> {
    let mut types = family::none();
    let mut rest = set;
    while rest != 0 {
        family::add(&mut types, &families[rest.trailing_zeros() as usize]);
        rest &= rest - 1;
    }
    types
}

fn every<const W: usize>(families: &[Family<W>], set: u32) -> Family<W> {
    let mut types = [u64::MAX; W];
    let mut rest = set;
    while rest != 0 {
        family::keep(&mut types, &families[rest.trailing_zeros() as usize]);
        rest &= rest - 1;
    }
    types
}

/// The types in which each member is true, from those before it and the lean's places.
fn truth<const W: usize>(members: &[Member], lean: &[u8]) -> Vec<Family<W>> {
    let steps = Steps { members, lean };
    let mut truth: Vec<Family<W>> = Vec::with_capacity(members.len());
    for (whole, &member) in members.iter().enumerate() {
        let whole = whole as u8;
        let of = |place: u8| &truth[usize::from(place)];
        let types = match member {
            Member::Constant(true) => [u64::MAX; W],
            Member::Constant(false) => family::none(),
            Member::Letter(_) => steps.place(member),
            Member::NotLetter(letter) => family::not(&steps.place(Member::Letter(letter))),
            Member::And(left, right) => family::and(of(left), of(right)),
            Member::Or(left, right) => family::or(of(left), of(right)),
            Member::Ex(modes, body) => steps.some(modes, body),
            Member::Ax(modes, body) => steps.every(modes, body),
            Member::Eu(modes, left, right) => {
                let step = steps.some(modes, whole);
                family::or(of(right), &family::and(of(left), &step))
            }
            Member::Ar(modes, left, right) => {
                let step = steps.every(modes, whole);
                family::and(of(right), &family::or(of(left), &step))
            }
            Member::Au(modes, left, right) => {
                let leads = steps.some(modes, steps.constant(true));
                let step = family::and(&leads, &steps.every(modes, whole));
                family::or(of(right), &family::and(of(left), &step))
            }
            Member::Er(modes, left, right) => {
                let ends = steps.every(modes, steps.constant(false));
                let step = family::or(&ends, &steps.some(modes, whole));
                family::and(of(right), &family::or(of(left), &step))
            }
        };
        truth.push(types);
    }
    truth
}

/// EX and AX over sets of modes, through the lean's places of the single ones.
struct Steps<'a> {
    members: &'a [Member],
    lean: &'a [u8],
}

impl Steps<'_> {
    fn place<const W: usize>(&self, member: Member) -> Family<W> {
        let is = |&place: &u8| self.members[usize::from(place)] == member;
        let place = self.lean.iter().position(is);
        family::place(place.expect("the closure holds the single steps"))
    }

    fn constant(&self, value: bool) -> u8 {
        let is = |&member: &Member| member == Member::Constant(value);
        let place = self.members.iter().position(is);
        place.expect("the closure holds the expansions") as u8
    }

    fn some<const W: usize>(&self, modes: Modes, body: u8) -> Family<W> {
        singles(modes).fold(family::none(), |types, mode| {
            family::or(&types, &self.place(Member::Ex(mode, body)))
        })
    }

    fn every<const W: usize>(&self, modes: Modes, body: u8) -> Family<W> {
        singles(modes).fold([u64::MAX; W], |types, mode| {
            family::and(&types, &self.place(Member::Ax(mode, body)))
        })
    }
}

fn singles(modes: Modes) -> impl Iterator<Item = Modes> {
    (0..16)
        .map(|m| 1 << m)
        .filter(move |mode| modes & mode != 0)
}

/// The conditions along each mode, without those that no type demands or no type refuses. Backward, the two are exchanged.
fn ways<const W: usize>(members: &[Member], truth: &[Family<W>]) -> Vec<Way<W>> {
    let mut demands: [Vec<Family<W>>; 8] = Default::default();
    let mut refusals: [Vec<Family<W>>; 8] = Default::default();
    let mut put = |field: usize, demand: Family<W>, refuse: Family<W>| {
        if !family::is_empty(&demand) && !family::is_empty(&refuse) {
            demands[field].push(demand);
            refusals[field].push(refuse);
        }
    };
    for (whole, &member) in members.iter().enumerate() {
        match member {
            // EX over backward m asks nothing of a link by m: one predecessor with the body is enough.
            Member::Ex(modes, body) if modes.is_power_of_two() && modes < 256 => {
                let field = modes.trailing_zeros() as usize;
                put(field, truth[whole], family::not(&truth[usize::from(body)]));
            }
            Member::Ax(modes, body) if modes.is_power_of_two() => {
                let mode = modes.trailing_zeros() as usize;
                let without = family::not(&truth[usize::from(body)]);
                match mode < 8 {
                    true => put(mode, truth[whole], without),
                    false => put(mode - 8, without, truth[whole]),
                }
            }
            Member::Au(modes, _, right) => {
                let types = family::less(&truth[whole], &truth[usize::from(right)]);
                for field in (0..8).filter(|field| modes >> field & modes >> (field + 8) & 1 == 1) {
                    put(field, types, types);
                }
            }
            _ => {}
        }
    }
    let way = |demands: &Vec<Family<W>>, refusals: &Vec<Family<W>>| Way {
        demands: demands.clone(),
        refusals: refusals.clone(),
        refusing: refusals
            .iter()
            .fold(family::none(), |a, b| family::or(&a, b)),
    };
    let forward = (0..8).map(|field| way(&demands[field], &refusals[field]));
    let backward = (0..8).map(|field| way(&refusals[field], &demands[field]));
    forward.chain(backward).collect()
}

fn asks<const W: usize>(nexts: &[Next], truth: &[Family<W>]) -> Vec<Ask<W>> {
    let mut asks: Vec<Ask<W>> = Vec::with_capacity(nexts.len());
    for next in nexts {
        let holders = truth[next.whole];
        match asks
            .iter_mut()
            .find(|ask| next.mode < 8 && ask.mode == next.mode)
        {
            Some(ask) => ask.holders = family::or(&ask.holders, &holders),
            None => asks.push(Ask {
                mode: next.mode,
                holders,
                body: match next.mode < 8 {
                    true => [u64::MAX; W],
                    false => truth[next.body],
                },
            }),
        }
    }
    asks
}

fn nexts(members: &[Member]) -> Vec<Next> {
    let next = |(whole, &member): (usize, &Member)| match member {
        Member::Ex(modes, body) if modes.is_power_of_two() => Some(Next {
            whole,
            mode: modes.trailing_zeros() as usize,
            body: usize::from(body),
        }),
        _ => None,
    };
    members.iter().enumerate().filter_map(next).collect()
}

fn untils(members: &[Member]) -> Vec<Until> {
    let until = |(whole, &member): (usize, &Member)| {
        let (every, modes, left, right) = match member {
            Member::Eu(modes, left, right) => (false, modes, left, right),
            Member::Au(modes, left, right) => (true, modes, left, right),
            _ => return None,
        };
        Some(Until {
            whole,
            every,
            modes,
            left: usize::from(left),
            right: usize::from(right),
        })
    };
    members.iter().enumerate().filter_map(until).collect()
}
