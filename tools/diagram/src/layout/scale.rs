//! How large things are drawn: the more events, the smaller, and labels go where they would not be legible.

use crate::drawing::letters::text_width;

#[derive(Clone, Copy, Debug)]
pub struct Scale {
    pub font: f64,
    /// Height of a mark.
    pub height: f64,
    /// Width of a mark's part that has the event's number.
    pub badge: f64,
    /// Least distance between two times.
    pub gap: f64,
    /// Between a mark and the nearest level line over or under it.
    pub clear: f64,
    /// From one level line to the next.
    pub track: f64,
    /// Between upright lines of one kind.
    pub apart: f64,
    /// What a row has above it at least.
    pub room: f64,
    /// Below a site's last row, and between its band and the next.
    pub below: f64,
    pub between_sites: f64,
    /// What a note at an arrow needs.
    pub note: f64,
    /// Size of an arrow's head; its line goes with it.
    pub head: f64,
    /// Whether marks have labels beside the events' numbers.
    pub is_labelled: bool,
}

const ROOMY: Scale = Scale {
    font: 14.0,
    height: 36.0,
    badge: 28.0,
    gap: 26.0,
    clear: 18.0,
    track: 7.0,
    apart: 10.0,
    room: 24.0,
    below: 22.0,
    between_sites: 20.0,
    note: 48.0,
    head: 11.0,
    is_labelled: true,
};

const CLOSE: Scale = Scale {
    font: 10.0,
    height: 26.0,
    badge: 19.0,
    gap: 14.0,
    clear: 14.0,
    track: 5.0,
    apart: 6.0,
    room: 18.0,
    below: 18.0,
    between_sites: 16.0,
    head: 8.0,
    ..ROOMY
};

const DENSE: Scale = Scale {
    font: 7.5,
    height: 15.0,
    badge: 24.0,
    gap: 10.0,
    clear: 10.0,
    track: 3.5,
    apart: 4.0,
    room: 14.0,
    below: 14.0,
    between_sites: 12.0,
    note: 48.0,
    head: 6.0,
    is_labelled: false,
};

impl Scale {
    pub fn of(events: usize) -> Scale {
        match events {
            0..=20 => ROOMY,
            21..=80 => CLOSE,
            _ => DENSE,
        }
    }

    /// What a mark with this label needs.
    pub fn width(&self, label: &str) -> f64 {
        match self.is_labelled {
            true => self.badge + text_width(label, self.font) + self.font,
            false => self.badge,
        }
    }

    /// Between a mark and a line beside it.
    pub fn beside_mark(&self) -> f64 {
        (self.gap / 3.0).min(5.0)
    }

    /// How wide the band under an arrow is: not so wide that it reaches the next line. Along a site's line, which marks
    /// cover for the most part, there is room for twice as much.
    pub fn band(&self) -> f64 {
        0.9 * self.apart
    }

    /// What so many level lines need between two rows.
    pub fn level(&self, lines: usize) -> f64 {
        match lines {
            0 => self.room,
            _ => 2.0 * self.clear + self.track * (lines - 1) as f64,
        }
    }

    /// How many arrows between rows may go straight, of a record of so many events.
    pub fn straight(&self, events: usize) -> usize {
        events + events / 4
    }
}
