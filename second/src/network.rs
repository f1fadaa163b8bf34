//! A study as the text gives it (rows in table order) and the network that follows from it.

use crate::areas;
use crate::cosine;
use crate::latch::Breaker;
use crate::limits::Whole;

#[derive(Clone, Copy, PartialEq, Eq, Debug)]
pub enum Kind {
    Resistor,
    Inductor,
    Capacitor,
    Line,
    Switch,
    VoltageSource,
    CurrentSource,
    CosineSource,
    TimedSwitch,
}

/// Each kind with its word in the text, its number in the record and how many numbers follow the word.
const KINDS: [(Kind, &str, i64, usize); 9] = [
    (Kind::Resistor, "R", 1, 3),
    (Kind::Inductor, "L", 2, 3),
    (Kind::Capacitor, "C", 3, 3),
    (Kind::Line, "LINE", 4, 4),
    (Kind::Switch, "SW", 5, 5),
    (Kind::VoltageSource, "VS", 6, 4),
    (Kind::CurrentSource, "IS", 7, 4),
    (Kind::CosineSource, "VC", 8, 4),
    (Kind::TimedSwitch, "SWT", 9, 5),
];

impl Kind {
    fn entry(self) -> &'static (Kind, &'static str, i64, usize) {
        KINDS.iter().find(|entry| entry.0 == self).expect("every kind stands in the table")
    }

    pub fn of_word(word: &[u8]) -> Option<Kind> {
        KINDS.iter().find(|entry| entry.1.as_bytes() == word).map(|entry| entry.0)
    }

    pub fn of_number(number: i64) -> Option<Kind> {
        KINDS.iter().find(|entry| entry.2 == number).map(|entry| entry.0)
    }

    pub fn word(self) -> &'static str {
        self.entry().1
    }

    pub fn number(self) -> i64 {
        self.entry().2
    }

    pub fn field_count(self) -> usize {
        self.entry().3
    }

    pub fn is_source(self) -> bool {
        self.fixes_voltage() || self == Kind::CurrentSource
    }

    /// Whether its node is fixed.
    pub fn fixes_voltage(self) -> bool {
        matches!(self, Kind::VoltageSource | Kind::CosineSource)
    }
}

/// One line of the table: the numbers as spelt, none derived.
#[derive(Clone, PartialEq, Eq, Debug)]
pub struct Row {
    pub kind: Kind,
    pub fields: Vec<Whole>,
}

/// A quotient of positive numbers to the nearest whole number, halves up.
pub fn nearest_halves_up(numerator: Whole, denominator: Whole) -> Whole {
    (2 * numerator + denominator).div_euclid(2 * denominator)
}

/// How a line's travel time lies over the steps: q whole ones and a rest r in ns, shorter than a step.
#[derive(Clone, Copy, PartialEq, Eq, Debug)]
pub struct Travel {
    pub whole_steps: Whole,
    pub rest: Whole,
    pub step_length: Whole,
}

impl Travel {
    pub fn of(nanoseconds: Whole, step_length: Whole) -> Travel {
        let (whole_steps, rest) = (nanoseconds / step_length, nanoseconds % step_length);
        Travel { whole_steps, rest, step_length }
    }

    /// What each end's store needs: 2q slots, and one more where r is not 0.
    pub fn slots(&self) -> Whole {
        2 * self.whole_steps + Whole::from(self.rest != 0)
    }

    /// What an end receives at step k: the value that the far end sent at step k - q plus (that of step
    /// k - q - 1 minus it) · r / step, rounded down. `sent` gives the far end's values; those before step 1 are 0.
    pub fn received(&self, step: Whole, sent: &dyn Fn(Whole) -> Whole) -> Whole {
        let value_of = |step: Whole| if step < 1 { 0 } else { sent(step) };
        let newer = value_of(step - self.whole_steps);
        let older = value_of(step - self.whole_steps - 1);
        newer + ((older - newer) * self.rest).div_euclid(self.step_length)
    }
}

impl Row {
    /// The conductance of a branch row; a source has none. Its fields must be in range.
    pub fn conductance(&self, step_length: Whole) -> Option<Whole> {
        let value = self.fields[2];
        match self.kind {
            Kind::Resistor | Kind::Line | Kind::Switch | Kind::TimedSwitch => {
                Some(nearest_halves_up(1_000_000_000_000, value))
            }
            Kind::Inductor => Some(nearest_halves_up(1_000_000_000 * step_length, 2 * value)),
            Kind::Capacitor => Some(nearest_halves_up(2_000_000 * value, step_length)),
            Kind::VoltageSource | Kind::CurrentSource | Kind::CosineSource => None,
        }
    }

    /// The travel time of a line.
    pub fn travel(&self, step_length: Whole) -> Option<Travel> {
        (self.kind == Kind::Line).then(|| Travel::of(self.fields[3], step_length))
    }

    /// The nodes the row names.
    pub fn nodes(&self) -> &[Whole] {
        if self.kind.is_source() {
            &self.fields[..1]
        } else {
            &self.fields[..2]
        }
    }
}

#[derive(Clone, PartialEq, Eq, Debug)]
pub struct Study {
    pub step_length: Whole,
    pub steps: Whole,
    pub limit: Whole,
    pub rows: Vec<Row>,
}

#[derive(Clone, Copy, PartialEq, Eq, Debug)]
pub enum Element {
    Resistor,
    Inductor,
    Capacitor,
    Line {
        travel: Travel,
    },
    /// SW: parts at a current zero.
    Switch(Breaker),
    /// SWT: closed at steps close to open - 1, whatever its current.
    TimedSwitch {
        close: Whole,
        open: Whole,
    },
}

#[derive(Clone, Debug)]
pub struct Branch {
    /// Place among all rows, sources counted, from 0: the index of its words in the records.
    pub row: usize,
    pub from: usize,
    pub to: usize,
    pub conductance: Whole,
    pub element: Element,
}

impl Branch {
    pub fn is_line(&self) -> bool {
        matches!(self.element, Element::Line { .. })
    }

    pub fn travel(&self) -> Option<Travel> {
        match self.element {
            Element::Line { travel } => Some(travel),
            _ => None,
        }
    }

    /// Only L and C carry a history of their own; a line's comes from its far end.
    pub fn keeps_history(&self) -> bool {
        matches!(self.element, Element::Inductor | Element::Capacitor)
    }

    pub fn breaker(&self) -> Option<Breaker> {
        match self.element {
            Element::Switch(breaker) => Some(breaker),
            _ => None,
        }
    }

    /// An open switch carries no current and has no conductance. `latch` is the branch's own, 0 where it has none.
    pub fn conducts_at(&self, step: Whole, latch: Whole) -> bool {
        match self.element {
            Element::Switch(breaker) => breaker.is_closed(latch, step),
            Element::TimedSwitch { close, open } => close <= step && step < open,
            _ => true,
        }
    }

    pub fn touches(&self, node: usize) -> bool {
        self.from == node || self.to == node
    }
}

/// How a source goes on from its start.
#[derive(Clone, Copy, PartialEq, Eq, Debug)]
pub enum Course {
    /// In so many steps to its peak, where it stays.
    Ramp { rise: Whole },
    /// From its peak on, at so many mHz and with steps of so many ns.
    Cosine { frequency: Whole, step_length: Whole },
}

#[derive(Clone, Debug)]
pub struct Source {
    pub node: usize,
    pub fixes_voltage: bool,
    pub peak: Whole,
    pub start: Whole,
    pub course: Course,
}

impl Source {
    /// 0 before the start, then by its course; both courses round toward zero. A ramp is peak · n / rise while n
    /// steps since the start are fewer than the rise, then the peak; a rise of 0 has no ramp, so nothing is divided
    /// by it.
    pub fn value_at(&self, step: Whole) -> Whole {
        let since_start = step - self.start;
        match self.course {
            _ if since_start < 0 => 0,
            Course::Ramp { rise } if since_start < rise => self.peak * since_start / rise,
            Course::Ramp { .. } => self.peak,
            Course::Cosine { frequency, step_length } => {
                let index = cosine_index(since_start, step_length, frequency);
                self.peak * cosine::cosine(index) / cosine::ONE
            }
        }
    }
}

/// The place in the turn after n steps, rounded down: the phase is n · step · frequency modulo 10^12, the whole turn.
pub fn cosine_index(since_start: Whole, step_length: Whole, frequency: Whole) -> Whole {
    let phase = (since_start * step_length * frequency).rem_euclid(WHOLE_TURN);
    cosine::TURN * phase / WHOLE_TURN
}

/// A whole turn in ns times mHz.
const WHOLE_TURN: Whole = 1_000_000_000_000;

/// What the step rules work on.
#[derive(Clone, Debug)]
pub struct Network {
    pub steps: Whole,
    pub limit: Whole,
    pub node_count: usize,
    pub row_count: usize,
    pub branches: Vec<Branch>,
    pub sources: Vec<Source>,
    /// Area number by node; place 0 stands for ground, which is in no area.
    pub area_of: Vec<usize>,
    pub area_count: usize,
}

impl Network {
    pub fn of_study(study: &Study) -> Network {
        let node_count = study.rows.iter().flat_map(|row| row.nodes()).max().map_or(0, |node| *node as usize);
        let mut branches = Vec::new();
        let mut sources = Vec::new();
        for (index, row) in study.rows.iter().enumerate() {
            if row.kind.is_source() {
                sources.push(source_of_row(row, study.step_length));
            } else {
                branches.push(branch_of_row(row, index, study.step_length));
            }
        }
        let area_of = areas::number_areas(node_count, &branches);
        let area_count = area_of.iter().copied().max().unwrap_or(0);
        Network {
            steps: study.steps,
            limit: study.limit,
            node_count,
            row_count: study.rows.len(),
            branches,
            sources,
            area_of,
            area_count,
        }
    }

    pub fn nodes_of_area(&self, area: usize) -> Vec<usize> {
        (1..=self.node_count).filter(|node| self.area_of[*node] == area).collect()
    }

    pub fn is_fixed(&self, node: usize) -> bool {
        self.sources.iter().any(|source| source.fixes_voltage && source.node == node)
    }

    /// The voltage that a VS or VC holds at its node, also before its start (then 0).
    pub fn fixed_voltage(&self, node: usize, step: Whole) -> Option<Whole> {
        let source = self.sources.iter().find(|source| source.fixes_voltage && source.node == node);
        source.map(|source| source.value_at(step))
    }

    /// The sum of the current sources of a node, each rounded by itself.
    pub fn injection(&self, node: usize, step: Whole) -> Whole {
        let here = self.sources.iter().filter(|source| !source.fixes_voltage && source.node == node);
        here.map(|source| source.value_at(step)).sum()
    }

    /// The area of a branch that is no line: ground, in no area, has the number 0.
    pub fn area_of_branch(&self, branch: &Branch) -> usize {
        self.area_of[branch.from].max(self.area_of[branch.to])
    }

    /// The branches with an end in the area, by index. A line may belong to two areas.
    pub fn branches_of_area(&self, area: usize) -> Vec<usize> {
        let touches = |branch: &Branch| self.area_of[branch.from] == area || self.area_of[branch.to] == area;
        (0..self.branches.len()).filter(|index| touches(&self.branches[*index])).collect()
    }
}

fn source_of_row(row: &Row, step_length: Whole) -> Source {
    Source {
        node: row.fields[0] as usize,
        fixes_voltage: row.kind.fixes_voltage(),
        peak: row.fields[1],
        start: row.fields[2],
        course: match row.kind {
            Kind::CosineSource => Course::Cosine { frequency: row.fields[3], step_length },
            _ => Course::Ramp { rise: row.fields[3] },
        },
    }
}

fn branch_of_row(row: &Row, index: usize, step_length: Whole) -> Branch {
    let element = match row.kind {
        Kind::Inductor => Element::Inductor,
        Kind::Capacitor => Element::Capacitor,
        Kind::Line => Element::Line { travel: Travel::of(row.fields[3], step_length) },
        Kind::Switch => Element::Switch(Breaker { close: row.fields[3], open: row.fields[4] }),
        Kind::TimedSwitch => Element::TimedSwitch { close: row.fields[3], open: row.fields[4] },
        Kind::Resistor | Kind::VoltageSource | Kind::CurrentSource | Kind::CosineSource => Element::Resistor,
    };
    Branch {
        row: index,
        from: row.fields[0] as usize,
        to: row.fields[1] as usize,
        conductance: row.conductance(step_length).expect("a branch row has a conductance"),
        element,
    }
}
