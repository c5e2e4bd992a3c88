//! Draws who holds which slot from frame to frame: the old allocator above, ours below, on the same axes.

use super::axes::{blocks, Axes, Block};
use super::colours::Colours;
use super::{Beside, Outside, Shared, Side};
use std::fmt::Write;

const LEFT: f64 = 64.0;
const RIGHT: f64 = 190.0;
const ABOVE: f64 = 34.0;
const BELOW: f64 = 40.0;

struct Pen<'a> {
    beside: &'a Beside,
    axes: &'a Axes,
    colours: Colours,
    top: f64,
    out: String,
}

impl Pen<'_> {
    fn put(&mut self, text: std::fmt::Arguments<'_>) {
        self.out.write_fmt(text).expect("a string grows");
        self.out.push('\n');
    }

    fn x(&self, line: usize) -> f64 {
        LEFT + self.axes.x(line)
    }

    fn y(&self, slot: usize) -> f64 {
        self.top + self.axes.y(slot)
    }

    fn panel(&mut self, name: &str, side: &Side) {
        let (x, y, w, h) = (LEFT, self.top, self.axes.width(), self.axes.height);
        self.put(format_args!(
            "<rect class='ground' x='{x:.1}' y='{y:.1}' width='{w:.1}' height='{h:.1}'/>\
             <text class='name' x='{x:.1}' y='{:.1}'>{name}</text>",
            y - 9.0
        ));
        for slot in self.axes.slot_ticks() {
            let below = self.y(slot);
            self.put(format_args!(
                "<line class='grid' x1='{:.1}' x2='{:.1}' y1='{below:.1}' y2='{below:.1}'/>\
                 <text class='tick' text-anchor='end' x='{:.1}' y='{:.1}'>{slot}</text>",
                x - 4.0,
                x + w,
                x - 7.0,
                below - 1.0
            ));
        }
        self.frames();
        if side.end < self.beside.frames.len() {
            self.ended(side.end);
        }
    }

    /// The numbers of the frames and, where there is room, their text.
    fn frames(&mut self) {
        let below = self.top + self.axes.height;
        for line in self.axes.frame_ticks() {
            let middle = self.x(line) + self.axes.frame / 2.0;
            let number = self.beside.line(line);
            self.put(format_args!(
                "<text class='tick' text-anchor='middle' x='{middle:.1}' y='{:.1}'>{number}</text>",
                below + 13.0
            ));
            if self.axes.frame >= 66.0 {
                let frame = &self.beside.rows[line].script;
                self.put(format_args!(
                    "<text class='frame' text-anchor='middle' x='{middle:.1}' y='{:.1}'>{frame}</text>",
                    below + 26.0
                ));
            }
        }
    }

    /// After a refusal there is nothing to see.
    fn ended(&mut self, line: usize) {
        let (x, y, h) = (self.x(line), self.top, self.axes.height);
        let w = LEFT + self.axes.width() - x;
        let line = self.beside.line(line);
        self.put(format_args!(
            "<rect class='ended' x='{x:.1}' y='{y:.1}' width='{w:.1}' height='{h:.1}'><title>refused at line {line}</title></rect>"
        ));
        if w > 60.0 {
            self.put(format_args!(
                "<text class='tick' x='{:.1}' y='{:.1}'>refused</text>",
                x + 5.0,
                y + 14.0
            ));
        }
    }

    /// Its label stands before the line from which another one covers it.
    fn bar(&mut self, block: &Block, covered: Option<usize>) {
        let (x, past) = (self.x(block.first.from), self.x(block.until));
        let (y, below) = (self.y(block.past()), self.y(block.first.slot));
        let label = block.label();
        let slots = match block.count {
            1 => format!("slot {}", block.first.slot),
            _ => format!("slots {}\u{2013}{}", block.first.slot, block.past() - 1),
        };
        let from = self.beside.line(block.first.from);
        let until = self.beside.line(block.until - 1);
        let title = format!("handle {label}, {slots}, lines {from}\u{2013}{until}");
        self.coloured(block.first.handle, (x, y, past - x, below - y), &title);
        let past = covered.map_or(past, |line| self.x(line));
        self.label(&label, (x, y, past - x, below - y));
    }

    fn coloured(&mut self, handle: usize, (x, y, w, h): (f64, f64, f64, f64), title: &str) {
        let (hue, light) = self.colours.of(handle);
        // thin bars have no edge: it would hide them
        let edge = match h > 3.0 && w > 3.0 {
            true => format!(" stroke='hsl({hue:.0} 45% 42%)' stroke-width='.7'"),
            false => String::new(),
        };
        self.put(format_args!(
            "<rect x='{x:.1}' y='{y:.2}' width='{:.1}' height='{:.2}' fill='hsl({hue:.0} 68% {light}%)'{edge}><title>{title}</title></rect>",
            w.max(0.6),
            h.max(0.5)
        ));
    }

    /// In the middle of the bar, upright where it is narrow; left out where there is no room.
    fn label(&mut self, label: &str, (x, y, w, h): (f64, f64, f64, f64)) {
        let wide = |size: f64| 0.6 * size * label.chars().count() as f64 + 4.0;
        let (across, up) = ((h - 2.0).min(12.0), (w - 2.0).min(12.0));
        let (size, turn) = match () {
            () if across >= 7.0 && w >= wide(across) => (across, ""),
            () if up >= 7.0 && h >= wide(up) => (up, "rotate(-90) "),
            () => return,
        };
        let (x, y) = (x + w / 2.0, y + h / 2.0);
        self.put(format_args!(
            "<text class='label' text-anchor='middle' font-size='{size:.1}' transform='translate({x:.1} {y:.1}) {turn}translate(0 {:.1})'>{label}</text>",
            0.36 * size
        ));
    }

    /// Both holders, one over the other, in a red frame.
    fn twice(&mut self, s: &Shared, end: usize) {
        let until = s.until().unwrap_or(end).min(end);
        let (x, past) = (self.x(s.newer.from), self.x(until));
        let (mut y, mut h) = (self.y(s.slot + 1), self.y(s.slot) - self.y(s.slot + 1));
        if h < 5.0 {
            (y, h) = (y - (5.0 - h) / 2.0, 5.0);
        }
        let w = past - x;
        for (held, y) in [(s.older, y), (s.newer, y + h / 2.0)] {
            let title = format!("slot {}, handle {}", s.slot, held.handle);
            self.coloured(held.handle, (x, y, w, h / 2.0), &title);
            self.label(&held.handle.to_string(), (x, y, w, h / 2.0));
        }
        self.put(format_args!(
            "<rect class='twice' x='{x:.1}' y='{y:.1}' width='{w:.1}' height='{h:.1}'/>"
        ));
    }

    /// Words beside the drawing, not over one another.
    fn calls(&mut self, shared: &[Shared]) {
        let side = LEFT + self.axes.width();
        let mut by_height: Vec<&Shared> = shared.iter().collect();
        by_height.sort_by_key(|s| std::cmp::Reverse(s.slot));
        by_height.dedup_by_key(|s| s.slot);
        let mut free = self.top - 4.0;
        for s in by_height {
            let at = self.y(s.slot) / 2.0 + self.y(s.slot + 1) / 2.0;
            let y = at.max(free + 10.0);
            if y > self.top + self.axes.height {
                break;
            }
            free = y + 22.0;
            let (older, newer) = (s.older.handle, s.newer.handle);
            self.put(format_args!(
                "<path class='lead' d='M{side:.1} {at:.1} l10 0 L{:.1} {y:.1}'/>\
                 <text class='call' x='{:.1}' y='{:.1}'>slot {} given twice</text>\
                 <text class='call thin' x='{:.1}' y='{:.1}'>handles {older} and {newer}</text>",
                side + 18.0,
                side + 22.0,
                y + 4.0,
                s.slot,
                side + 22.0,
                y + 18.0
            ));
        }
    }
}

/// Where the script left the domain of 01, through both panels.
fn left(pen: &mut Pen<'_>, beside: &Beside, bottom: f64) {
    let Some((line, why)) = beside.left else {
        return;
    };
    let x = pen.x(line);
    let name = match why {
        Outside::HeadAboveLength => "H &gt; L",
        Outside::RootFreedLate => "root freed after 05",
    };
    pen.put(format_args!(
        "<line class='left' x1='{x:.1}' x2='{x:.1}' y1='{:.1}' y2='{bottom:.1}'/>\
         <text class='call' x='{:.1}' y='{:.1}'>{name}</text>",
        ABOVE - 20.0,
        x + 4.0,
        ABOVE - 12.0
    ));
}

/// The drawing of one script; nothing where there is nothing to draw.
pub fn draw(beside: &Beside) -> String {
    let old = blocks(&beside.old, &beside.shared);
    let ours = blocks(&beside.ours, &[]);
    if old.is_empty() && ours.is_empty() {
        return "<p class='quiet'>no slot is held</p>".into();
    }
    let axes = Axes::new(beside, &old, &ours);
    let mut pen = Pen {
        beside,
        axes: &axes,
        colours: Colours::new(&old, &ours),
        top: ABOVE,
        out: String::new(),
    };
    let (old_name, our_name) = match beside.titled() {
        true => ("old, edition 1", "ours, edition 2"),
        false => ("old", "ours"),
    };
    pen.panel(old_name, &beside.old);
    for block in &old {
        let shares = |s: &&Shared| [s.older.handle, s.newer.handle].contains(&block.first.handle);
        let covered = beside.shared.iter().find(shares).map(|s| s.newer.from);
        pen.bar(block, covered);
    }
    let end = beside.old.end;
    beside.shared.iter().for_each(|s| pen.twice(s, end));
    pen.calls(&beside.shared);
    pen.top += axes.height + BELOW + ABOVE - 8.0;
    pen.panel(our_name, &beside.ours);
    ours.iter().for_each(|b| pen.bar(b, None));
    let bottom = pen.top + axes.height;
    left(&mut pen, beside, bottom);
    let (w, h) = (LEFT + axes.width() + RIGHT, bottom + BELOW);
    format!(
        "<svg xmlns='http://www.w3.org/2000/svg' width='{w:.0}' height='{h:.0}' viewBox='0 0 {w:.0} {h:.0}' role='img'>\n{}</svg>",
        pen.out
    )
}
