//! Chooses case lines that tell the turns which no line so far tells.

use crate::asked;
use crate::case::{Case, Kind};
use crate::group::{self, Group, Source};
use crate::told;
use crate::turn;
use crate::turn_answers::TurnAnswers;
use std::io::{Result, Write};

/// Groups of each kind among which the best are chosen, and the highest limit of a run, play or preview among them.
const POOL: usize = 400;
const HIGHEST_LIMIT: u32 = 10_001;

/// The turns that no line tells yet, and the groups of lines chosen for the others.
struct Choice {
    open: Vec<u32>,
    chosen: Vec<Group>,
}

/// Writes lines that tell the turns which the given ones do not tell, and tells whether all are told.
pub fn run(cases: &str, count: u64, seed: u64, mut out: impl Write) -> Result<bool> {
    let cases = asked::read_cases(cases)?.into_iter().flatten().collect();
    let mut choice = Choice {
        open: told::untold(&asked::answered(cases))?,
        chosen: Vec::new(),
    };
    let asked = choice.open.len();
    let single = Kind::without_runs().filter(|kind| ![Kind::Lists, Kind::LogLists].contains(kind));
    choice.take_best(&single.collect::<Vec<_>>(), seed);
    choice.take_best(&[Kind::Lists], seed);
    choice.take_best(&[Kind::LogLists], seed);
    choice.take_best(&[Kind::Runs], seed);
    choice.take_best(&[Kind::Player], seed);
    choice.take_best(&[Kind::Panel], seed);
    choice.take_best(&[Kind::Trades], seed);
    choice.search_each(count, seed);
    let text = choice.text();
    out.write_all(&text)?;
    out.flush()?;
    let (groups, bytes, left) = (choice.chosen.len(), text.len(), choice.open.len());
    eprintln!(
        "choose: {asked} turns to tell, {groups} groups of lines, {bytes} bytes, {left} turns left"
    );
    for &number in &choice.open {
        eprintln!("told by no case: {}", turn::name(number));
    }
    Ok(choice.open.is_empty())
}

impl Choice {
    /// Takes groups of some kinds as long as one of a pool tells an open turn, the best first.
    fn take_best(&mut self, kinds: &[Kind], seed: u64) {
        let mut pool = pool(kinds, seed, &self.open);
        while let Some((at, place)) = best(&pool) {
            self.take(pool.swap_remove(at), place);
            pool.iter_mut().for_each(|group| group.keep(&self.open));
        }
    }

    /// Takes a group up to a place.
    fn take(&mut self, mut group: Group, place: usize) {
        group.cut(place);
        self.open.retain(|&number| !group.tells(number));
        self.chosen.push(group);
    }

    /// Looks for a group for each turn that is still open, among the kinds that must tell it.
    fn search_each(&mut self, count: u64, seed: u64) {
        for number in self.open.clone() {
            if self.open.contains(&number)
                && let Some((mut group, place)) = search_kinds(number, count, seed)
            {
                let others = self.open.iter().filter(|&&other| other != number);
                others.for_each(|&other| group.try_turn(other, &mut TurnAnswers::new(other)));
                self.take(group, place);
            }
        }
    }

    /// Gives the case lines of the groups chosen.
    fn text(&self) -> Vec<u8> {
        let mut text = Vec::new();
        let lines = self.chosen.iter().flat_map(|group| &group.lines);
        lines.for_each(|line| group::put(&line.case, &mut text));
        text
    }
}

/// Makes groups of some kinds, each with the turns that it tells among those that one of the kinds must tell.
fn pool(kinds: &[Kind], seed: u64, open: &[u32]) -> Vec<Group> {
    let mut source = Source::new(seed);
    let all = kinds.iter().flat_map(|&kind| [kind; POOL]);
    let made = all
        .map(|kind| source.next(kind, true))
        .filter(|cases| ends_soon(cases));
    let mut pool: Vec<Group> = made.map(Group::of).collect();
    let is_near = |&&number: &&u32| turn::told_by(number).any(|kind| kinds.contains(&kind));
    for &number in open.iter().filter(is_near) {
        let mut answers = TurnAnswers::new(number);
        pool.iter_mut()
            .for_each(|group| group.try_turn(number, &mut answers));
    }
    pool
}

/// Tells whether a group is no run, play or preview, or one that cannot last long.
fn ends_soon(cases: &[Case]) -> bool {
    let given = cases.last().and_then(Case::given);
    given.is_none_or(|given| given.limit <= HIGHEST_LIMIT)
}

/// Finds the group that tells the most turns for its weight, and the place to cut it at.
fn best(pool: &[Group]) -> Option<(usize, usize)> {
    let cut = |(at, group): (usize, &Group)| group.best_cut().map(|cut| (at, cut));
    let cuts = pool.iter().enumerate().filter_map(cut);
    let best = cuts.max_by(|(_, one), (_, other)| one.0.total_cmp(&other.0));
    best.map(|(at, (_, place))| (at, place))
}

/// Looks for a group that tells a turn, among the kinds that must tell it, in small ones before others.
fn search_kinds(number: u32, count: u64, seed: u64) -> Option<(Group, usize)> {
    let kinds = turn::told_by(number);
    let groups = |kind, small| {
        let mut source = Source::new(seed);
        (0..count).map(move |_| Group::of(source.next(kind, small)))
    };
    let search_all = |small| {
        kinds
            .clone()
            .find_map(|kind| first_telling(number, groups(kind, small)))
    };
    search_all(true).or_else(|| search_all(false))
}

/// Finds the first group that tells a turn, and the place at which it does.
fn first_telling(number: u32, mut groups: impl Iterator<Item = Group>) -> Option<(Group, usize)> {
    let mut answers = TurnAnswers::new(number);
    groups.find_map(|mut group| {
        group.try_turn(number, &mut answers);
        let place = group.told.first().map(|&(_, place)| place);
        place.map(|place| (group, place))
    })
}
