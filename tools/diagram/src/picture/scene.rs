//! What is drawn between the heading and the legend, from back to front.

use super::counts::counts;
use super::legend::{self, Sign};
use super::marks::{self, Shown};
use super::{axis, bands, labels, lines, signs};
use crate::drawing::page::MARGIN;
use crate::drawing::strokes::rounded;
use crate::drawing::svg::{at, Svg};
use crate::layout::across::Across;
use crate::layout::Layout;
use crate::part::Drawn;
use crate::record::Event;
use crate::sight::{Says, Web};
use crate::telling::Breach;

pub struct Scene<'a> {
    pub drawn: &'a Drawn<'a>,
    pub breach: Option<&'a Breach>,
    /// The events of the break in words.
    pub told: &'a [String],
    pub web: &'a Web,
    pub across: &'a Across,
    pub layout: &'a Layout,
}

impl Scene<'_> {
    pub fn draw(&self, svg: &mut Svg) {
        self.sites(svg);
        axis::draw(svg, self.across, self.layout.rows.bottom());
        self.breach.iter().for_each(|breach| bands::draw(svg, self.layout, self.web, &breach.steps, self.told));
        self.rings(svg);
        lines::ends(svg, self.layout, self.across.line_end());
        self.web.lines.iter().for_each(|line| lines::draw(svg, self.layout, line, self.is_part()));
        self.visibility(svg);
        self.events(svg);
        self.breaking(svg);
    }

    fn is_part(&self) -> bool {
        self.drawn.left_out() > 0
    }

    fn sites(&self, svg: &mut Svg) {
        for (site, band) in self.drawn.sites.iter().zip(&self.layout.rows.bands) {
            let right = self.layout.width - MARGIN / 2.0;
            svg.rectangle("band", at(MARGIN / 2.0, band.top), at(right, band.bottom), 8.0);
            let middle = self.layout.rows.rows[band.first].middle();
            svg.text("site", at(MARGIN, middle + 5.0), 14.0, &format!("site {site}"));
        }
    }

    fn rings(&self, svg: &mut Svg) {
        let Some(breach) = self.breach else { return };
        let pair = breach.events().into_iter().map(|event| ("ring pair", event));
        let named = breach.named.iter().map(|&event| ("ring named", event));
        for (class, event) in pair.chain(named) {
            marks::ring(svg, class, &self.drawn.record.events[event], &self.layout.marks[event], &self.layout.scale);
        }
    }

    fn visibility(&self, svg: &mut Svg) {
        let arrows = self.web.arrows.iter().zip(&self.layout.routes);
        for (arrow, route) in arrows.filter(|(arrow, _)| !arrow.says.is_of_break()) {
            svg.between(
                arrow.says.class(),
                (arrow.from, arrow.to),
                &rounded(&route.points),
                &arrow.words(self.is_part()),
            );
        }
    }

    fn events(&self, svg: &mut Svg) {
        for (number, event) in self.drawn.events() {
            let shown = Shown { event, number, details: self.drawn.record.details(number) };
            marks::draw(svg, &shown, &self.layout.marks[number], &self.layout.scale);
        }
    }

    /// Last, so that nothing covers it; the note is at the first of its arrows.
    fn breaking(&self, svg: &mut Svg) {
        let Some(breach) = self.breach else { return };
        let mut counts = counts(self.layout, &breach.steps);
        let arrows = self.web.arrows.iter().zip(&self.layout.routes);
        let breaking: Vec<_> = arrows.filter(|(arrow, _)| arrow.says.is_of_break()).collect();
        let first = breaking.first().copied();
        let said = first.and_then(|first| signs::said(self.layout, first, &breach.note, &mut counts));
        said.iter().for_each(|said| said.edge(svg));
        for (arrow, route) in breaking {
            svg.between(
                arrow.says.class(),
                (arrow.from, arrow.to),
                &rounded(&route.points),
                &arrow.words(self.is_part()),
            );
        }
        said.iter().for_each(|said| said.draw(svg));
        counts.iter().for_each(|count| count.draw(svg));
    }

    /// The signs that the legend explains.
    pub fn signs(&self) -> Vec<Sign> {
        let mut signs = vec![Sign::Write, Sign::Read, Sign::Pending, Sign::Return];
        let head = if self.is_part() { Sign::OfDrawn } else { Sign::Arrow };
        signs.extend([head(Says::SeesAll), head(Says::SeesAlone), Sign::Gap]);
        if let Some(breach) = self.breach {
            signs.push(Sign::Pair);
            let has_way = !breach.steps.is_empty();
            let named = if has_way { Sign::OnWay } else { Sign::Named };
            signs.extend((!breach.named.is_empty()).then_some(named));
            signs.extend(has_way.then_some(Sign::Step));
            signs.extend(breach.arrows.iter().map(|arrow| Sign::Arrow(arrow.says)));
        }
        signs
    }

    /// What it says below them.
    pub fn words(&self) -> Vec<String> {
        let (drawn, record) = (self.drawn, self.drawn.record);
        let part = self.is_part().then(|| legend::of_part(drawn.numbers.len(), record.events.len()));
        let arrows = legend::of_arrows(self.is_part(), self.layout.may_share_lines());
        let numbers = legend::of_numbers(&self.layout.scale, axis::base(self.across));
        // The smallest scale has no labels.
        let labelled: Vec<&Event> =
            drawn.events().map(|(_, event)| event).filter(|_| self.layout.scale.is_labelled).collect();
        let labels = labels::in_words(&labelled);
        let opening = labelled.iter().any(|event| event.holds_opening).then(|| legend::OPENING.to_string());
        let clocks = (record.difference > 0).then(|| legend::of_clocks(record.difference));
        let way = self.breach.filter(|breach| !breach.steps.is_empty()).map(|_| legend::WAY.to_string());
        part.into_iter().chain([arrows, numbers]).chain(labels).chain(opening).chain(clocks).chain(way).collect()
    }
}
