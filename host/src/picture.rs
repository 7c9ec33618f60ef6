//! A floor and its routes as an SVG that moves, written from the description of the command `desk picture` and not from the proved code.
//!
//! The grid begins at 28, 28; a cell is 40 wide, or 24 on a floor of more than 16 columns or rows. A cell's middle is where a carrier stands; a
//! trace has a track of its own in each cell, so that no two lie on each other. A dock is parted into stripes, one for each carrier that has it.
//! The legend stands 24 behind the grid, a line every 30. The animation takes half a second a beat, and two beats more at its end.
#![allow(dead_code)]

use crate::paper::{self, Answer, Floor};

const COLOURS: [&str; 8] = ["#e69f00", "#56b4e9", "#009e73", "#f0e442", "#0072b2", "#d55e00", "#cc79a7", "#000"];

/// The carriers whose colour is light, so that the letters on it are black.
const LIGHT: [usize; 4] = [1, 2, 4, 7];

struct Page<'a> {
    floor: &'a Floor,
    answers: Vec<Answer>,
}

impl Page<'_> {
    fn small(&self) -> bool {
        self.floor.width.max(self.floor.height) > 16
    }

    fn side(&self) -> usize {
        if self.small() {
            24
        } else {
            40
        }
    }

    /// The column and the row of a cell, each turned into a place on the page.
    fn at(&self, cell: usize, place: impl Fn(usize) -> usize) -> (usize, usize) {
        (place(cell % self.floor.width), place(cell / self.floor.width))
    }

    fn edge(&self, k: usize) -> usize {
        28 + self.side() * k
    }

    fn middle(&self, k: usize) -> usize {
        self.edge(k) + self.side() / 2
    }

    fn track(&self, k: usize, carrier: usize) -> usize {
        self.edge(k) + if self.small() { 8 + carrier } else { 13 + 2 * carrier }
    }

    fn legend(&self) -> usize {
        self.edge(self.floor.width) + 24
    }

    fn square(&self, cell: usize) -> String {
        let (x, y) = self.at(cell, |k| self.edge(k));
        let s = self.side();
        format!("M{x} {y}h{s}v{s}h-{s}z")
    }

    fn arrival(&self, i: usize) -> String {
        match &self.answers[i] {
            Some(route) => format!("carrier {}: beat {}", i + 1, paper::arrival_of(route, self.floor.horizon)),
            None => format!("carrier {}: none", i + 1),
        }
    }

    fn docks(&self) -> String {
        let mut text = String::new();
        let s = self.side();
        for i in 0..self.floor.carriers() {
            for &dock in &self.floor.docks[i] {
                let sharing: Vec<usize> = (0..self.floor.carriers()).filter(|&j| self.floor.docks[j].contains(&dock)).collect();
                let k = sharing.iter().position(|&j| j == i).unwrap();
                let (from, to) = (s * k / sharing.len(), s * (k + 1) / sharing.len());
                let (x, y) = self.at(dock, |k| self.edge(k));
                text += &format!(
                    "<rect class=\"f{}\" x=\"{}\" y=\"{y}\" width=\"{}\" height=\"{s}\" fill-opacity=\".4\"/>\n",
                    i + 1,
                    x + from,
                    to - from
                );
                text += &format!("<path d=\"{}\" fill=\"none\" stroke=\"#222\" stroke-dasharray=\"4 3\"/>\n", self.square(dock));
            }
        }
        text
    }

    fn trace(&self, i: usize) -> String {
        let Some(route) = &self.answers[i] else { return String::new() };
        let point = |t: usize| self.at(route[t] as usize, |k| self.track(k, i));
        let arrival = paper::arrival_of(route, self.floor.horizon);
        let points: String = (0..=arrival).map(point).map(|(x, y)| format!(" {x},{y}")).collect();
        let (x, y) = point(arrival);
        let class = i + 1;
        format!(
            "<polyline class=\"s{class}\" points=\"{points}\"/><circle class=\"f{class}\" cx=\"{x}\" cy=\"{y}\" r=\"5\" stroke=\"none\"/>\n"
        )
    }

    /// The group of a carrier at its start, with its movement where one is given.
    fn body(&self, i: usize, movement: &str) -> String {
        let (x, y) = self.at(self.floor.starts[i], |k| self.middle(k));
        let (r, down) = if self.small() { (9, 4) } else { (14, 5) };
        let n = i + 1;
        format!(
            "<g transform=\"translate({x} {y})\">{movement}<circle class=\"f{n}\" r=\"{r}\" stroke=\"#222\"/>\
             <text class=\"t{n}\" y=\"{down}\">{n}</text></g>\n"
        )
    }

    fn duration(&self) -> usize {
        500 * (self.floor.horizon + 2)
    }

    fn movement(&self, route: &paper::Route) -> String {
        let horizon = self.floor.horizon;
        let beats = (0..=horizon).chain([horizon, horizon]);
        let places: Vec<String> = beats
            .map(|t| {
                let (x, y) = self.at(route[t] as usize, |k| self.middle(k));
                format!("{x} {y}")
            })
            .collect();
        format!(
            "<animateTransform attributeName=\"transform\" type=\"translate\" dur=\"{}ms\" repeatCount=\"indefinite\" values=\"{}\"/>",
            self.duration(),
            places.join(";")
        )
    }

    fn stranded(&self, i: usize) -> String {
        let (x, y) = self.at(self.floor.starts[i], |k| self.edge(k));
        let s = self.side();
        format!("<rect x=\"{x}\" y=\"{y}\" width=\"{s}\" height=\"{s}\" fill=\"url(#hatch)\"/>\n") + &self.body(i, "")
    }

    fn numerals(&self) -> String {
        let horizon = self.floor.horizon;
        let turns: Vec<String> =
            (0..=horizon).chain([horizon]).map(|t| if t == 0 { "0 0".into() } else { format!("0 -{}", 30 * t) }).collect();
        let texts: String =
            (0..=horizon).map(|t| format!("<text x=\"{}\" y=\"{}\">{t}</text>\n", self.legend() + 44, 50 + 30 * t)).collect();
        format!(
            "<g class=\"moving\" clip-path=\"url(#window)\"><g><animateTransform attributeName=\"transform\" type=\"translate\" \
             calcMode=\"discrete\" dur=\"{}ms\" repeatCount=\"indefinite\" values=\"{}\"/>\n{texts}</g></g>\n",
            self.duration(),
            turns.join(";")
        )
    }

    fn line(&self, i: usize) -> String {
        let (x, y) = (self.legend(), 80 + 30 * i);
        format!(
            "<circle class=\"f{}\" cx=\"{}\" cy=\"{}\" r=\"9\" stroke=\"#222\"/><text x=\"{}\" y=\"{y}\">{}</text>\n",
            i + 1,
            x + 10,
            y - 5,
            x + 28,
            self.arrival(i)
        )
    }

    fn svg(&self) -> String {
        let (w, h, s) = (self.floor.width, self.floor.height, self.side());
        let all: Vec<usize> = (0..self.floor.carriers()).collect();
        let each = |part: &dyn Fn(usize) -> String| -> String { all.iter().map(|&i| part(i)).collect() };
        let width = self.legend() + 190;
        let height = (self.edge(h) + 16).max(66 + 30 * all.len());
        let colours = |letter: &str, property: &str| -> String {
            COLOURS.iter().enumerate().map(|(k, colour)| format!(".{letter}{}{{{property}:{colour}}}", k + 1)).collect()
        };
        let letters = |light: bool| -> String {
            let classes: Vec<String> = (1..=8).filter(|k| LIGHT.contains(k) == light).map(|k| format!(".t{k}")).collect();
            format!("{}{{fill:{}}}", classes.join(","), if light { "#000" } else { "#fff" })
        };
        let routed = |i: &usize| self.answers[*i].is_some();
        let x = self.legend();
        let mut text = format!(
            "<svg xmlns=\"http://www.w3.org/2000/svg\" width=\"{width}\" height=\"{height}\" viewBox=\"0 0 {width} {height}\" role=\"img\" \
             aria-labelledby=\"title desc\">\n<title id=\"title\">Routes on a floor of {w} by {h} cells</title>\n<desc id=\"desc\">"
        );
        text += &each(&|i| self.arrival(i) + ". ");
        text += "</desc>\n<style>\n";
        text += &format!("{}\n{}\n{}{}\n", colours("f", "fill"), colours("s", "stroke"), letters(true), letters(false));
        text += "@media (prefers-reduced-motion:reduce){.moving{display:none}}\n";
        text += "@media (prefers-reduced-motion:no-preference){.still{display:none}}\n</style>\n<defs>\n";
        text += &format!(
            "<pattern id=\"grid\" x=\"28\" y=\"28\" width=\"{s}\" height=\"{s}\" patternUnits=\"userSpaceOnUse\">\
             <path d=\"M{s} 0H0V{s}\" fill=\"none\" stroke=\"#ccc\"/></pattern>\n"
        );
        text += "<pattern id=\"hatch\" width=\"6\" height=\"6\" patternUnits=\"userSpaceOnUse\" patternTransform=\"rotate(45)\">";
        text += "<path d=\"M0 0V6\" stroke=\"#222\" stroke-width=\"3\"/></pattern>\n";
        text += &format!(
            "<clipPath id=\"window\"><rect x=\"{}\" y=\"30\" width=\"36\" height=\"28\"/></clipPath>\n</defs>\n",
            x + 40
        );
        text += &format!("<rect width=\"{width}\" height=\"{height}\" fill=\"#fff\"/>\n");
        text += "<g font-family=\"sans-serif\" font-size=\"14\" fill=\"#222\">\n";
        text += &format!(
            "<rect x=\"28\" y=\"28\" width=\"{}\" height=\"{}\" fill=\"url(#grid)\" stroke=\"#999\"/>\n<g font-size=\"11\" fill=\"#555\">\n",
            s * w,
            s * h
        );
        for k in 0..w {
            text += &format!("<text x=\"{}\" y=\"20\" text-anchor=\"middle\">{k}</text>\n", self.middle(k));
        }
        for k in 0..h {
            text += &format!("<text x=\"22\" y=\"{}\" text-anchor=\"end\">{k}</text>\n", self.middle(k) + 4);
        }
        let walls: String = self.floor.walls.iter().map(|&wall| self.square(wall)).collect();
        text += &format!("</g>\n<path fill=\"#444\" d=\"{walls}\"/>\n");
        text += &self.docks();
        text += "<g fill=\"none\" stroke-width=\"3\" stroke-opacity=\".8\" stroke-linejoin=\"round\" stroke-linecap=\"round\">\n";
        text += &each(&|i| self.trace(i));
        text += &format!(
            "</g>\n<g font-size=\"{}\" font-weight=\"bold\" text-anchor=\"middle\">\n",
            if self.small() { 12 } else { 16 }
        );
        text += &all.iter().filter(|i| !routed(i)).map(|&i| self.stranded(i)).collect::<String>();
        text += "<g class=\"still\">\n";
        text += &all.iter().filter(|i| routed(i)).map(|&i| self.body(i, "")).collect::<String>();
        text += "</g>\n<g class=\"moving\">\n";
        text += &each(&|i| self.answers[i].map_or(String::new(), |route| self.body(i, &self.movement(&route))));
        text += "</g>\n</g>\n<g font-size=\"16\">\n";
        text +=
            &format!("<text x=\"{x}\" y=\"50\">beat</text><text x=\"{}\" y=\"50\">of {}</text>\n", x + 80, self.floor.horizon);
        text += &format!("<g class=\"still\"><text x=\"{}\" y=\"50\">0</text></g>\n", x + 44);
        text += &(self.numerals() + "</g>\n");
        text += &each(&|i| self.line(i));
        text + "</g>\n</svg>\n"
    }
}

/// What `desk picture` prints.
pub fn print_picture(text: &[u8]) -> String {
    match paper::floor_of_sheet(text) {
        Ok(floor) => {
            let answers = paper::plan(&floor).0;
            Page { floor: &floor, answers }.svg()
        }
        Err(refusal) => paper::text_line(&[0, refusal.number as usize, refusal.place]),
    }
}
