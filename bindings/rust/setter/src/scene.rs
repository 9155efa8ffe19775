//! A round as what a picture shows of it: stretches in which an arrival runs, what waits, what is refused, what is read.
use crate::file::SheetFile;
use crate::play::{Act, Mark};
use poqashem::{Player, Refusal};

/// With more lanes than these, events that never arrive have none.
const LANES: usize = 16;

/// How a stretch ended.
#[derive(Clone, Copy, PartialEq, Eq)]
pub enum End {
    Committed {
        over: bool,
    },
    /// Broken into, or put back by a change of the sheet: its work is dropped.
    Dropped,
    /// The script ends while it runs.
    Open,
}

/// A stretch in which an arrival runs, from before one step to after another.
pub struct Stretch {
    pub act: Act,
    pub from: u64,
    pub to: u64,
    pub again: bool,
    pub end: End,
}

/// Who breaks into whom.
pub struct Break {
    pub by: Act,
    pub of: Act,
    pub step: u64,
}

/// Arrivals of one event at one step.
pub struct Arrivals {
    pub event: String,
    pub step: u64,
    pub acts: Vec<Act>,
}

/// Arrivals of one event at one step that are refused alike.
pub struct Refused {
    pub event: String,
    pub step: u64,
    pub refusal: Refusal,
    pub players: Vec<Player>,
    pub count: u64,
}

/// What is to be drawn.
#[derive(Default)]
pub struct Scene {
    pub stretches: Vec<Stretch>,
    pub arrivals: Vec<Arrivals>,
    pub refused: Vec<Refused>,
    pub breaks: Vec<Break>,
    pub changes: Vec<(String, u64)>,
    /// What was read, in words.
    pub looks: Vec<(u64, String)>,
    /// Waiting: event, from, to.
    waits: Vec<(String, u64, u64)>,
}

impl Scene {
    pub fn of(marks: &[(u64, Mark)], steps: u64) -> Scene {
        let mut scene = Scene::default();
        let mut hand = Hand { running: None, waiting: vec![] };
        for (step, mark) in marks {
            scene.mark(&mut hand, *step, mark);
        }
        if let Some((act, from, again)) = hand.running {
            scene.close(&act, (from, steps), again, End::Open);
        }
        scene.waits.extend(hand.waiting.into_iter().map(|(act, from)| (act.event, from, steps)));
        scene
    }

    fn mark(&mut self, hand: &mut Hand, step: u64, mark: &Mark) {
        let before = step.saturating_sub(1);
        match mark {
            Mark::Arrived(act) => {
                self.arrived(act, step);
                hand.waiting.push((act.clone(), step));
            }
            Mark::Refused { event, player, refusal } => self.refuse(event, *player, *refusal, step),
            Mark::Started { act, again } | Mark::BrokeIn { act, again } => {
                if let Some((other, from, restarted)) = hand.running.take() {
                    self.breaks.push(Break { by: act.clone(), of: other.clone(), step: before });
                    self.close(&other, (from, before), restarted, End::Dropped);
                    hand.waiting.push((other, before));
                }
                self.waited(hand, act, before);
                hand.running = Some((act.clone(), before, *again));
            }
            Mark::Committed { act, over } => {
                let (from, again) = hand.running.take().map_or((before, false), |(_, from, again)| (from, again));
                self.close(act, (from, step), again, End::Committed { over: *over });
            }
            Mark::Mended(words) => {
                if let Some((act, from, again)) = hand.running.take() {
                    self.close(&act, (from, step), again, End::Dropped);
                    hand.waiting.push((act, step));
                }
                self.changes.push((words.clone(), step));
            }
            Mark::Looked(words) => self.looks.push((step, words.clone())),
        }
    }

    fn close(&mut self, act: &Act, (from, to): (u64, u64), again: bool, end: End) {
        self.stretches.push(Stretch { act: act.clone(), from, to, again, end });
    }

    fn arrived(&mut self, act: &Act, step: u64) {
        match self.arrivals.iter_mut().find(|a| a.event == act.event && a.step == step) {
            Some(group) => group.acts.push(act.clone()),
            None => self.arrivals.push(Arrivals { event: act.event.clone(), step, acts: vec![act.clone()] }),
        }
    }

    fn refuse(&mut self, event: &str, player: Player, refusal: Refusal, step: u64) {
        let like = |r: &&mut Refused| r.event == event && r.step == step && r.refusal == refusal;
        match self.refused.iter_mut().find(like) {
            Some(group) => {
                group.count += 1;
                if !group.players.contains(&player) {
                    group.players.push(player);
                }
            }
            None => {
                let players = vec![player];
                self.refused.push(Refused { event: event.to_string(), step, refusal, players, count: 1 });
            }
        }
    }

    fn waited(&mut self, hand: &mut Hand, act: &Act, to: u64) {
        if let Some(k) = hand.waiting.iter().position(|(w, _)| w.number == act.number) {
            let (own, from) = hand.waiting.remove(k);
            self.waits.push((own.event, from, to));
        }
    }

    /// How many of an event wait, from one step to another.
    pub fn waiting(&self, event: &str) -> Vec<(u64, u64, u64)> {
        let own: Vec<(u64, u64)> = self
            .waits
            .iter()
            .filter(|(e, from, to)| e == event && from < to)
            .map(|(_, from, to)| (*from, *to))
            .collect();
        let mut ends: Vec<u64> = own.iter().flat_map(|(from, to)| [*from, *to]).collect();
        ends.sort_unstable();
        ends.dedup();
        let count = |from: u64, to: u64| own.iter().filter(|(f, t)| *f <= from && to <= *t).count() as u64;
        let spans = ends.windows(2).map(|w| (w[0], w[1], count(w[0], w[1])));
        spans.filter(|(.., count)| *count > 0).collect()
    }

    /// Events with their ranks, those of the sheet and any that came with another; the more urgent ones first.
    pub fn lanes(&self, file: &SheetFile) -> Vec<(String, Option<u32>)> {
        let table = file.compile().ok();
        let rank = |e: usize| table.as_ref().and_then(|t| t.rank(poqashem::Event(e as u32)).ok());
        let mut lanes: Vec<_> = file.events.iter().enumerate().map(|(e, name)| (name.clone(), rank(e))).collect();
        let refused = self.refused.iter().map(|r| (r.event.clone(), None));
        let arrived = self.arrivals.iter().map(|a| (a.event.clone(), Some(a.acts[0].rank)));
        for lane in arrived.chain(refused) {
            if !lanes.iter().any(|(name, _)| *name == lane.0) {
                lanes.push(lane);
            }
        }
        if lanes.len() > LANES {
            let seen = |name: &str| {
                self.arrivals.iter().any(|a| a.event == name) || self.refused.iter().any(|r| r.event == name)
            };
            lanes.retain(|(name, _)| seen(name));
        }
        lanes.sort_by_key(|(_, rank)| std::cmp::Reverse(*rank));
        lanes
    }
}

/// What runs, since when and whether again, and what waits, since when.
struct Hand {
    running: Option<(Act, u64, bool)>,
    waiting: Vec<(Act, u64)>,
}
