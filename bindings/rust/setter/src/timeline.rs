//! A round as a picture, or the rounds of two phones over the same steps: a lane for each event, the more urgent ones
//! above. What a sign stands for is told by the legend, and of each sign by its title, where the pointer rests on it.
use crate::file::SheetFile;
use crate::play::{Act, Mark};
use crate::scene::{Arrivals, Break, End, Refused, Scene, Stretch};
use crate::wording::{folded, listed, long, player, several};
use poqashem::{Player, Refusal};
use std::fmt::Write;

// the page, in pixels
const LEFT: f64 = 150.0;
const RIGHT: f64 = 40.0;
const LANE: f64 = 58.0;
const BAR: f64 = 22.0;
const ROW: f64 = 34.0;
const AXIS: f64 = 46.0;
const NOTE: f64 = 16.0;
/// The strip of what is read, below the lanes.
const STRIP: f64 = 26.0;
/// A step's width at most, the plot's at least, at most, and where many commit.
const STEP: f64 = 12.0;
const NARROW: f64 = 680.0;
const WIDE: f64 = 1040.0;
const WIDEST: f64 = 2080.0;
const COMMIT_WIDTH: f64 = 28.0;
/// About so wide is a letter, and a small one.
const LETTER: f64 = 6.4;
const SMALL: f64 = 5.1;
/// Signs that are no further apart share a label.
const CLOSE: f64 = 12.0;
/// So many readings are told below the picture; all have titles.
const NOTES: usize = 40;

// colours
const INK: &str = "#1f2933";
const PALE: &str = "#6b7785";
const GRID: &str = "#e4e8ec";
const DONE: &str = "#2f6db3";
const OPEN: &str = "#a9c4e4";
const LOST: &str = "#d6402b";
const COMMIT: &str = "#1f8a4c";
const WAIT: &str = "#9aa7b4";
const CHANGE: &str = "#7a3fb0";
const LOOK: &str = "#b06a00";
/// Letters that lie on something else.
const HALO: &str = r##"stroke="#ffffff" stroke-width="3" stroke-linejoin="round" paint-order="stroke""##;

/// One phone.
pub struct Panel<'a> {
    /// Above its lanes, where there are several.
    pub title: String,
    pub file: &'a SheetFile,
    pub marks: Vec<(u64, Mark)>,
    pub steps: u64,
}

/// The place of an event.
struct Lane {
    event: String,
    rank: Option<u32>,
    top: f64,
    height: f64,
    /// How far below the bar's middle refusals stand.
    low: f64,
}

impl Lane {
    /// The middle of its bars.
    fn middle(&self) -> f64 {
        self.top + LANE / 2.0 + 4.0
    }
}

/// What is said beside signs from one place to another.
struct Label {
    from: f64,
    to: f64,
    wide: f64,
    words: String,
}

/// How high it is where so many wait.
fn heap(count: u64) -> f64 {
    2.0 + 1.5 * (count.min(64) as f64).sqrt()
}

/// The picture. Where a frame has so many steps, the axis counts frames.
pub fn draw(title: &str, panels: &[Panel], frame: Option<u64>) -> String {
    let scenes: Vec<Scene> = panels.iter().map(|panel| Scene::of(&panel.marks, panel.steps)).collect();
    let steps = panels.iter().map(|panel| panel.steps).max().unwrap_or(0).max(1);
    let commits = scenes.iter().map(|scene| scene.stretches.len()).max().unwrap_or(0) as f64;
    let most = (commits * COMMIT_WIDTH).clamp(WIDE, WIDEST);
    let plot = (steps as f64 * STEP).clamp(NARROW, most);
    let width = LEFT + plot + RIGHT;
    let (step, figures) = (plot / steps as f64, figures(steps, frame.unwrap_or(1)));
    let mut page = Page { out: String::new(), step, width, figures, lanes: vec![], bottom: 0.0, notes: vec![] };
    page.bottom = page.heading(title);
    panels.iter().zip(&scenes).for_each(|(panel, scene)| page.panel(panel, scene));
    page.axis(steps, frame);
    page.notes_below();
    page.legend(&scenes);
    page.whole(title)
}

struct Page {
    out: String,
    /// A step's width.
    step: f64,
    width: f64,
    /// What the axis shows: a step, and its figure.
    figures: Vec<(u64, u64)>,
    /// Those of the panel that is drawn.
    lanes: Vec<Lane>,
    /// How far down something is drawn.
    bottom: f64,
    /// What was read, each with its mark.
    notes: Vec<(String, String)>,
}

fn escaped(text: &str) -> String {
    text.replace('&', "&amp;").replace('<', "&lt;").replace('>', "&gt;").replace('"', "&quot;")
}

/// `#0 #1`, or `#0 to #63 (64)`, and who sent them, if it was not the host.
fn numbers(acts: &[Act]) -> String {
    let name = |act: &Act| format!("#{}", act.number);
    let named = match acts {
        [first, .., last] if acts.len() > 3 => format!("{} to {} ({})", name(first), name(last), acts.len()),
        _ => acts.iter().map(name).collect::<Vec<_>>().join(" "),
    };
    named + &from(acts.iter().map(|act| act.player))
}

/// ` from 1 and 2`; of the host alone nothing is said.
fn from(players: impl Iterator<Item = Player>) -> String {
    let mut all: Vec<u32> = players.map(|p| p.0).collect();
    all.sort_unstable();
    all.dedup();
    if all == [Player::HOST.0] || all.is_empty() {
        return String::new();
    }
    format!(" from {}", listed(&all.iter().map(u32::to_string).collect::<Vec<_>>()))
}

/// `36 refused from 2: full hand`, of each refusal.
fn together(close: &[&Refused]) -> String {
    let mut kinds: Vec<Refusal> = vec![];
    for group in close {
        if !kinds.contains(&group.refusal) {
            kinds.push(group.refusal);
        }
    }
    let one = |kind: &Refusal| {
        let own = || close.iter().filter(|r| r.refusal == *kind);
        let count: u64 = own().map(|r| r.count).sum();
        let number = if count == 1 { String::new() } else { format!("{} ", long(count)) };
        format!("{number}refused{}: {}", from(own().flat_map(|r| r.players.iter().copied())), kind.word())
    };
    kinds.iter().map(one).collect::<Vec<_>>().join("; ")
}

/// The same in full.
fn refusal(group: &Refused) -> String {
    let Refused { event, step, refusal, players, count } = group;
    let who = listed(&players.iter().map(|p| player(*p)).collect::<Vec<_>>());
    format!("step {step}: {} {event} from {who} refused, {refusal}: {}", long(*count), refusal.when())
}

fn act(act: &Act) -> String {
    format!("{} #{} from {}", act.event, act.number, player(act.player))
}

/// Figures of steps, or of frames of so many: apart by 1, 2 or 5 times a power of ten, about ten in all.
fn figures(steps: u64, unit: u64) -> Vec<(u64, u64)> {
    let count = steps / unit;
    let mut every = 1;
    for factor in [2, 5, 10].into_iter().cycle() {
        if count / every <= 12 {
            break;
        }
        every = match factor {
            2 => every * 2,
            5 => every / 2 * 5,
            _ => every * 2,
        };
    }
    (0..=count).step_by(every as usize).map(|figure| (figure * unit, figure)).collect()
}

impl Page {
    fn put(&mut self, line: std::fmt::Arguments) {
        let _ = writeln!(self.out, "{line}");
    }

    fn x(&self, step: u64) -> f64 {
        LEFT + step as f64 * self.step
    }

    fn lane(&self, event: &str) -> &Lane {
        self.lanes.iter().find(|lane| lane.event == event).unwrap_or(&self.lanes[0])
    }

    /// The middle of an event's bars.
    fn y(&self, event: &str) -> f64 {
        self.lane(event).middle()
    }

    fn text(&mut self, x: f64, y: f64, style: &str, words: &str) {
        let words = escaped(words);
        self.put(format_args!(r#"<text x="{x:.1}" y="{y:.1}" {style}>{words}</text>"#));
    }

    fn line(&mut self, from: (f64, f64), to: (f64, f64), style: &str) {
        let ((x1, y1), (x2, y2)) = (from, to);
        self.put(format_args!(r#"<line x1="{x1:.1}" y1="{y1:.1}" x2="{x2:.1}" y2="{y2:.1}" {style}/>"#));
    }

    /// Signs with a title.
    fn titled(&mut self, words: &str, signs: impl FnOnce(&mut Page)) {
        let words = escaped(words);
        self.put(format_args!("<g><title>{words}</title>"));
        signs(self);
        self.put(format_args!("</g>"));
    }

    // ---- the frame

    /// The whole file, once its height is known.
    fn whole(self, title: &str) -> String {
        let (width, height, about) = (self.width, self.bottom, escaped(title));
        format!(
            r##"<svg xmlns="http://www.w3.org/2000/svg" viewBox="0 0 {width:.0} {height:.0}" width="{width:.0}" height="{height:.0}" font-family="Helvetica, Arial, sans-serif" font-size="12" role="img">
<title>Timeline of {about}</title>
<defs><pattern id="dropped" width="7" height="7" patternUnits="userSpaceOnUse" patternTransform="rotate(45)"><rect width="7" height="7" fill="{LOST}" fill-opacity="0.12"/><rect width="2.4" height="7" fill="{LOST}" fill-opacity="0.55"/></pattern></defs>
<rect width="{width:.0}" height="{height:.0}" fill="#ffffff"/>
{}</svg>
"##,
            self.out
        )
    }

    /// The title, in as many lines as it takes. How far down it comes.
    fn heading(&mut self, title: &str) -> f64 {
        let columns = ((self.width - 32.0) / 8.2) as usize;
        let mut y = 26.0;
        for line in folded(title, columns, 0).lines() {
            self.text(16.0, y, &format!(r#"font-size="15" font-weight="bold" fill="{INK}""#), line);
            y += 19.0;
        }
        y + 6.0
    }

    /// One phone below what is drawn.
    fn panel(&mut self, panel: &Panel, scene: &Scene) {
        if !panel.title.is_empty() {
            self.text(20.0, self.bottom + 14.0, &format!(r#"font-weight="bold" fill="{INK}""#), &panel.title);
            self.bottom += 22.0;
        }
        // what a change says stands above the lanes
        self.bottom += if scene.changes.is_empty() { 0.0 } else { 10.0 };
        let top = self.bottom;
        self.place(scene, panel.file);
        self.names();
        self.grid(top);
        for k in 0..self.lanes.len() {
            self.waits(scene, k);
        }
        scene.stretches.iter().for_each(|stretch| self.stretch(stretch));
        scene.changes.iter().for_each(|(words, step)| self.change(words, *step, top));
        // what may lie at the edge of the next bar or label comes last
        scene.stretches.iter().for_each(|stretch| self.commit(stretch));
        for k in 0..self.lanes.len() {
            self.arrivals(scene, k);
            self.refused(scene, k);
        }
        scene.breaks.iter().for_each(|one| self.break_in(one));
        self.looks(panel, scene);
    }

    /// A lane for each event, as high as what is drawn in it.
    fn place(&mut self, scene: &Scene, file: &SheetFile) {
        self.lanes.clear();
        for (event, rank) in scene.lanes(file) {
            let waiting = scene.waiting(&event).iter().map(|(.., count)| *count).max().unwrap_or(0);
            let more = if waiting > 3 { heap(waiting) + 6.0 } else { 0.0 };
            let refused = if scene.refused.iter().any(|r| r.event == event) { 14.0 } else { 0.0 };
            let (top, height, low) = (self.bottom, LANE + more + refused, LANE / 2.0 - 6.0 + more + refused / 2.0);
            self.lanes.push(Lane { event, rank, top, height, low });
            self.bottom += height;
        }
        if self.lanes.is_empty() {
            self.lanes.push(Lane { event: String::new(), rank: None, top: self.bottom, height: LANE, low: 0.0 });
            self.bottom += LANE;
        }
    }

    fn names(&mut self) {
        for k in 0..self.lanes.len() {
            let Lane { event, rank, top, height, .. } = &self.lanes[k];
            let (name, rank, top, height) = (event.clone(), *rank, *top, *height);
            if k % 2 == 0 {
                let whole = self.width - 24.0;
                self.put(format_args!(
                    r##"<rect x="12" y="{top:.1}" width="{whole:.1}" height="{height:.1}" fill="#f6f8fa"/>"##
                ));
            }
            let middle = self.lanes[k].middle();
            let size = if name.len() > 16 { 10 } else { 13 };
            self.text(20.0, middle, &format!(r#"font-size="{size}" font-weight="bold" fill="{INK}""#), &name);
            let rank = rank.map_or(String::new(), |r| format!("rank {r}"));
            self.text(20.0, middle + 15.0, &format!(r#"font-size="11" fill="{PALE}""#), &rank);
        }
    }

    /// The lines of the axis, behind what is drawn in the lanes.
    fn grid(&mut self, top: f64) {
        for (step, _) in self.figures.clone() {
            let (x, bottom) = (self.x(step), self.bottom);
            self.line((x, top), (x, bottom), &format!(r#"stroke="{GRID}""#));
        }
    }

    fn axis(&mut self, steps: u64, frame: Option<u64>) {
        let bottom = self.bottom;
        for (step, figure) in self.figures.clone() {
            let x = self.x(step);
            self.line((x, bottom), (x, bottom + 5.0), &format!(r#"stroke="{PALE}""#));
            self.text(x, bottom + 19.0, &format!(r#"text-anchor="middle" fill="{PALE}""#), &long(figure));
        }
        self.line((LEFT, bottom), (self.x(steps), bottom), &format!(r#"stroke="{PALE}""#));
        let what = frame.map_or("steps made".to_string(), |n| format!("frames of {}", several(n, "step", "steps")));
        self.text(20.0, bottom + 19.0, &format!(r#"fill="{PALE}""#), &what);
        self.bottom += AXIS - 8.0;
    }

    // ---- what happens

    /// What waits in a lane: the higher, the more.
    fn waits(&mut self, scene: &Scene, k: usize) {
        let (event, y) = (self.lanes[k].event.clone(), self.lanes[k].middle() + BAR / 2.0 + 4.0);
        let spans = scene.waiting(&event);
        for (from, to, count) in &spans {
            let (x, width, height) = (self.x(*from), self.x(*to) - self.x(*from), heap(*count));
            let have = if *count == 1 { "waits" } else { "wait" };
            let words = format!("{} of {event} {have} in the hand, steps {from} to {to}", long(*count));
            self.titled(&words, |page| {
                page.put(format_args!(
                    r#"<rect x="{x:.1}" y="{y:.1}" width="{width:.1}" height="{height:.1}" fill="{WAIT}"/>"#
                ));
            });
        }
        let Some((from, _, most)) = spans.iter().rev().max_by_key(|(.., count)| *count).filter(|(.., c)| *c > 3) else {
            return;
        };
        let style = format!(r#"font-size="10" fill="{PALE}" {HALO}"#);
        self.text(self.x(*from), y + heap(*most) + 9.0, &style, &format!("{most} wait"));
    }

    /// A triangle for the arrivals of one event at one step; of those that stand close together, and of single ones, the
    /// numbers and senders where there is room.
    fn arrivals(&mut self, scene: &Scene, k: usize) {
        let event = self.lanes[k].event.clone();
        let own: Vec<&Arrivals> = scene.arrivals.iter().filter(|a| a.event == event).collect();
        let y = self.lanes[k].middle() - BAR / 2.0 - 3.0;
        let mut labels = vec![];
        let step = self.step;
        for close in own.chunk_by(|a, b| (b.step - a.step) as f64 * step < CLOSE) {
            for group in close {
                let all: Vec<String> = group.acts.iter().map(act).collect();
                let x = self.x(group.step);
                self.titled(&format!("step {}: {} arrives", group.step, listed(&all)), |page| page.triangle(x, y));
            }
            let acts: Vec<Act> = close.iter().flat_map(|group| group.acts.clone()).collect();
            labels.push(self.label(close.iter().map(|group| group.step), numbers(&acts)));
        }
        // an arrow comes down to where the label would be
        let arrow = |label: &Label| {
            let comes = |b: &Break| b.of.event == event && self.x(b.step) >= label.to - 1.0;
            scene.breaks.iter().any(|b| comes(b) && self.x(b.step) < label.to + label.wide)
        };
        let left: Vec<bool> = labels.iter().map(arrow).collect();
        self.labels(&labels, &left, y - 1.0, INK);
    }

    /// A label for signs at these steps.
    fn label(&self, steps: impl Iterator<Item = u64> + Clone, words: String) -> Label {
        let [from, to] = [steps.clone().min(), steps.max()].map(|step| self.x(step.unwrap_or(0)));
        Label { from, to, wide: words.len() as f64 * LETTER + 14.0, words }
    }

    /// Labels of one row: to the right of their signs, or to the left where the next sign, the edge or something else is
    /// in the way; none where there is no room.
    fn labels(&mut self, labels: &[Label], left: &[bool], y: f64, colour: &str) {
        let mut free = 10.0;
        for (k, label) in labels.iter().enumerate() {
            let next = labels.get(k + 1).map_or(self.width - 4.0, |next| next.from - 6.0);
            let (anchor, at, end) = match (left[k] || label.to + label.wide > next, label.from - label.wide > free) {
                (false, _) => ("start", label.to + 8.0, label.to + label.wide),
                (true, true) => ("end", label.from - 8.0, label.to + 6.0),
                (true, false) => {
                    free = label.to + 6.0;
                    continue;
                }
            };
            free = end;
            let style = format!(r#"font-size="11" text-anchor="{anchor}" fill="{colour}" {HALO}"#);
            self.text(at, y, &style, &label.words);
        }
    }

    fn triangle(&mut self, x: f64, y: f64) {
        let top = y - 9.0;
        let (left, right) = (x - 5.0, x + 5.0);
        self.put(format_args!(
            r#"<path d="M {left:.1} {top:.1} L {right:.1} {top:.1} L {x:.1} {y:.1} Z" fill="{INK}"/>"#
        ));
    }

    fn cross(&mut self, x: f64, y: f64) {
        let style = format!(r#"stroke="{LOST}" stroke-width="2.4""#);
        self.line((x - 4.5, y - 9.0), (x + 4.5, y), &style);
        self.line((x - 4.5, y), (x + 4.5, y - 9.0), &style);
    }

    /// A cross below the bars for what is refused at one step; of those that stand close together, and of single ones,
    /// how many and the refusals' words.
    fn refused(&mut self, scene: &Scene, k: usize) {
        let event = self.lanes[k].event.clone();
        let own: Vec<&Refused> = scene.refused.iter().filter(|r| r.event == event).collect();
        let y = self.lanes[k].middle() + self.lanes[k].low;
        let mut labels = vec![];
        let step = self.step;
        for close in own.chunk_by(|a, b| (b.step - a.step) as f64 * step < CLOSE) {
            for group in close.chunk_by(|a, b| a.step == b.step) {
                let titles: Vec<String> = group.iter().map(|r| refusal(r)).collect();
                let x = self.x(group[0].step);
                self.titled(&titles.join("; "), |page| page.cross(x, y));
            }
            labels.push(self.label(close.iter().map(|group| group.step), together(close)));
        }
        self.labels(&labels, &vec![false; labels.len()], y, LOST);
    }

    /// A bar with its arrival's number, where there is room.
    fn stretch(&mut self, stretch: &Stretch) {
        let Stretch { act: own, from, to, again, end } = stretch;
        let done = match end {
            End::Committed { over: true } => "runs and commits; a result ran over",
            End::Committed { over: false } => "runs and commits",
            End::Open => "runs, and the script ends",
            End::Dropped => "runs, and its work is dropped",
        };
        let once = if *again { " again" } else { "" };
        let words = format!("{}: {done}{once}, steps {from} to {to}", act(own));
        self.titled(&words, |page| page.bar(stretch));
    }

    fn bar(&mut self, stretch: &Stretch) {
        let (x, to) = (self.x(stretch.from), self.x(stretch.to));
        let y = self.y(&stretch.act.event);
        let ink = match stretch.end {
            End::Committed { .. } => {
                self.solid(x, to, y, DONE);
                r##"fill="#ffffff""##.to_string()
            }
            End::Open => {
                self.solid(x, to, y, OPEN);
                format!(r#"fill="{INK}""#)
            }
            End::Dropped => {
                self.torn(x, to, y);
                format!(r#"fill="{INK}" {HALO}"#)
            }
        };
        let name = format!("#{}", stretch.act.number);
        let room = to - x - 2.0 * dot_size(to - x);
        let again = format!("{name} again");
        let fits = |words: &str, letter: f64| words.len() as f64 * letter < room;
        let (words, size) = match () {
            () if stretch.again && fits(&again, LETTER + 0.8) => (again, 12),
            () if fits(&name, LETTER + 0.8) => (name, 12),
            () if fits(&name, SMALL) => (name, 9),
            () => return,
        };
        let style = format!(r#"{ink} font-size="{size}" text-anchor="middle" font-weight="bold""#);
        self.text((x + to) / 2.0, y + 4.0, &style, &words);
    }

    fn solid(&mut self, x: f64, to: f64, y: f64, fill: &str) {
        let (top, width) = (y - BAR / 2.0, (to - x).max(1.5));
        self.put(format_args!(
            r#"<rect x="{x:.1}" y="{top:.1}" width="{width:.1}" height="{BAR}" rx="3" fill="{fill}"/>"#
        ));
    }

    /// Work that is dropped: hatched, with a torn edge.
    fn torn(&mut self, x: f64, to: f64, y: f64) {
        let (top, low, to) = (y - BAR / 2.0, y + BAR / 2.0, to.max(x + 1.5));
        let inner = (to - 5.0).max(x);
        let tooth = |k: u32| (if k % 2 == 1 { inner } else { to }, top + BAR / 4.0 * f64::from(k));
        let edge: String = (1..=4).map(tooth).map(|(x, y)| format!(" L {x:.1} {y:.1}")).collect();
        let path = format!("M {x:.1} {top:.1} L {to:.1} {top:.1}{edge} L {x:.1} {low:.1} Z");
        self.put(format_args!(r##"<path d="{path}" fill="#ffffff"/>"##));
        self.put(format_args!(r#"<path d="{path}" fill="url(#dropped)" stroke="{LOST}" stroke-width="1.4"/>"#));
    }

    fn commit(&mut self, stretch: &Stretch) {
        if let End::Committed { over } = stretch.end {
            let (x, y) = (self.x(stretch.to), self.y(&stretch.act.event));
            let size = dot_size(x - self.x(stretch.from));
            let ran = if over { "; a result ran over" } else { "" };
            let words = format!("step {}: {} commits{ran}", stretch.to, act(&stretch.act));
            self.titled(&words, |page| page.dot(x, y, size, over));
        }
    }

    fn dot(&mut self, x: f64, y: f64, size: f64, over: bool) {
        let (fill, edge) = (if over { LOST } else { COMMIT }, size / 3.5);
        self.put(format_args!(
            r##"<circle cx="{x:.1}" cy="{y:.1}" r="{size:.1}" fill="{fill}" stroke="#ffffff" stroke-width="{edge:.1}"/>"##
        ));
        if over && size > 5.0 {
            let style = r##"text-anchor="middle" font-size="10" font-weight="bold" fill="#ffffff""##;
            self.text(x, y + 3.5, style, "!");
        }
    }

    /// An arrow from the one that breaks in to the one that is dropped; a change of ranks may have put it below.
    fn break_in(&mut self, one: &Break) {
        let Break { by, of, step } = one;
        let (from, to, x) = (self.y(&by.event), self.y(&of.event), self.x(*step));
        let down = if from <= to { 1.0 } else { -1.0 };
        let words = format!("step {step}: {} breaks into {}", act(by), act(of));
        self.titled(&words, |page| page.arrow(x, from + down * BAR / 2.0, to - down * (BAR / 2.0 + 1.0)));
    }

    fn arrow(&mut self, x: f64, from: f64, to: f64) {
        let down = if from <= to { 1.0 } else { -1.0 };
        self.line((x, from), (x, to - down * 6.0), &format!(r#"stroke="{LOST}" stroke-width="2""#));
        let (left, right, back) = (x - 4.5, x + 4.5, to - down * 8.0);
        self.put(format_args!(
            r#"<path d="M {left:.1} {back:.1} L {right:.1} {back:.1} L {x:.1} {to:.1} Z" fill="{LOST}"/>"#
        ));
    }

    fn change(&mut self, words: &str, step: u64, top: f64) {
        let (x, bottom) = (self.x(step), self.bottom);
        let told = format!("now {words}");
        self.titled(&format!("step {step}: the sheet is {told}"), |page| {
            let style = format!(r#"stroke="{CHANGE}" stroke-width="1.6" stroke-dasharray="6 4""#);
            page.line((x, top - 12.0), (x, bottom), &style);
            let left = x > page.width / 2.0;
            let (anchor, at) = if left { ("end", x - 5.0) } else { ("start", x + 5.0) };
            let style = format!(r#"font-size="11" text-anchor="{anchor}" fill="{CHANGE}""#);
            page.text(at, top - 3.0, &style, &told);
        });
    }

    // ---- what is read

    /// A diamond for each reading, with the mark under which it is told below.
    fn looks(&mut self, panel: &Panel, scene: &Scene) {
        if scene.looks.is_empty() {
            return;
        }
        let y = self.bottom + STRIP / 2.0;
        self.text(20.0, y + 4.0, &format!(r#"font-size="11" fill="{PALE}""#), "what is read");
        let mut free = 0.0;
        for (step, words) in &scene.looks {
            let mark = format!("B{}", self.notes.len() + 1);
            let x = self.x(*step);
            self.titled(&format!("step {step}: {words}"), |page| page.diamond(x, y));
            let at = (x + 7.0).max(free);
            let style = format!(r#"font-size="11" font-weight="bold" fill="{LOOK}" {HALO}"#);
            if at + 24.0 < self.width {
                self.text(at, y + 4.0, &style, &mark);
                free = at + mark.len() as f64 * LETTER + 6.0;
            }
            let phone = panel.title.split(',').next().unwrap_or("").trim();
            let whose = if phone.is_empty() { String::new() } else { format!("{phone}, ") };
            self.notes.push((mark, format!("{whose}step {}: {words}", long(*step))));
        }
        self.bottom += STRIP;
    }

    fn diamond(&mut self, x: f64, y: f64) {
        let (left, right, top, low) = (x - 5.0, x + 5.0, y - 5.0, y + 5.0);
        self.put(format_args!(
            r#"<path d="M {x:.1} {top:.1} L {right:.1} {y:.1} L {x:.1} {low:.1} L {left:.1} {y:.1} Z" fill="{LOOK}"/>"#
        ));
    }

    /// What was read, in words.
    fn notes_below(&mut self) {
        let notes = std::mem::take(&mut self.notes);
        let columns = ((self.width - 80.0) / LETTER) as usize;
        for (mark, words) in notes.iter().take(NOTES) {
            let style = format!(r#"font-size="11" font-weight="bold" fill="{LOOK}""#);
            self.text(20.0, self.bottom + 10.0, &style, mark);
            for line in folded(words, columns, 0).lines() {
                self.text(56.0, self.bottom + 10.0, &format!(r#"font-size="11" fill="{INK}""#), line);
                self.bottom += NOTE;
            }
        }
        if notes.len() > NOTES {
            let more = format!("and {} more", notes.len() - NOTES);
            self.text(56.0, self.bottom + 10.0, &format!(r#"font-size="11" fill="{PALE}""#), &more);
            self.bottom += NOTE;
        }
    }

    // ---- the legend

    /// What the picture has, each sign with its meaning, in as many lines as it takes.
    fn legend(&mut self, scenes: &[Scene]) {
        let ends = |of: fn(&End) -> bool| scenes.iter().any(|scene| scene.stretches.iter().any(|s| of(&s.end)));
        let some = |of: fn(&Scene) -> bool| scenes.iter().any(of);
        let waits = |scene: &Scene| scene.arrivals.iter().any(|a| !scene.waiting(&a.event).is_empty());
        let signs = [
            (Sign::Commits, "runs, then commits", ends(|e| matches!(e, End::Committed { .. }))),
            (Sign::Dropped, "its work is dropped", ends(|e| *e == End::Dropped)),
            (Sign::BreakIn, "who breaks into whom", some(|s| !s.breaks.is_empty())),
            (Sign::Arrives, "arrives, from the host if no player is named", some(|s| !s.arrivals.is_empty())),
            (Sign::Refused, "is refused", some(|s| !s.refused.is_empty())),
            (Sign::Waits, "waits in the hand", some(waits)),
            (Sign::Over, "commits, but a result ran over", ends(|e| *e == End::Committed { over: true })),
            (Sign::Open, "still running", ends(|e| *e == End::Open)),
            (Sign::Changed, "the sheet is changed", some(|s| !s.changes.is_empty())),
            (Sign::Looks, "is read, see above", some(|s| !s.looks.is_empty())),
        ];
        let (mut x, mut y) = (20.0, self.bottom + 22.0);
        for (sign, words, _) in signs.into_iter().filter(|(_, _, used)| *used) {
            let wide = sign.width() + 8.0 + words.len() as f64 * LETTER + 22.0;
            if x + wide > self.width {
                (x, y) = (20.0, y + ROW);
            }
            self.sign(sign, x, y);
            self.text(x + sign.width() + 8.0, y + 4.0, &format!(r#"fill="{INK}""#), words);
            x += wide;
        }
        self.bottom = y + 24.0;
    }

    fn sign(&mut self, sign: Sign, x: f64, y: f64) {
        let to = x + sign.width();
        let middle = (x + to) / 2.0;
        match sign {
            Sign::Commits => {
                self.solid(x, to - 6.0, y, DONE);
                self.dot(to - 6.0, y, 6.5, false);
            }
            Sign::Dropped => self.torn(x, to, y),
            Sign::Open => self.solid(x, to, y, OPEN),
            Sign::BreakIn => self.arrow(middle, y - BAR / 2.0, y + BAR / 2.0),
            Sign::Arrives => self.triangle(middle, y + 4.0),
            Sign::Refused => self.cross(middle, y + 4.0),
            Sign::Waits => self.line((x, y), (to, y), &format!(r#"stroke="{WAIT}" stroke-width="4""#)),
            Sign::Over => self.dot(middle, y, 6.5, true),
            Sign::Looks => self.diamond(middle, y),
            Sign::Changed => {
                let style = format!(r#"stroke="{CHANGE}" stroke-width="1.6" stroke-dasharray="6 4""#);
                self.line((middle, y - 12.0), (middle, y + 12.0), &style);
            }
        }
    }
}

/// A commit's size at the end of a bar of this width.
fn dot_size(width: f64) -> f64 {
    (width * 0.14).clamp(2.2, 6.5)
}

/// What the legend explains.
#[derive(Clone, Copy)]
enum Sign {
    Commits,
    Dropped,
    BreakIn,
    Arrives,
    Refused,
    Waits,
    Over,
    Open,
    Changed,
    Looks,
}

impl Sign {
    fn width(self) -> f64 {
        match self {
            Sign::Commits | Sign::Dropped | Sign::Waits | Sign::Open => 36.0,
            _ => 12.0,
        }
    }
}
