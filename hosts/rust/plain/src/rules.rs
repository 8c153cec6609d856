//! The rules over a whole document, 19 to 27 and 29: its parts go together by their names, and an SGR with its type.
//! All of them are judged, since the break on the earliest line counts, and on one line the lowest number.

use std::collections::hash_map::{Entry, HashMap};
use std::collections::HashSet;

use crate::document::{Action, Amount, Document, Form, Method, Model, ModelType, Named, Step};
use crate::refusal::{Refusal, COUNT, KIND, LIST, METHOD, NO_MAP, NO_SECTION, SGR, SIDE, TWICE, UNUSED};

/// The earliest break so far.
#[derive(Default)]
struct Breaks {
    first: Option<(u64, u64)>,
}

impl Breaks {
    fn note(&mut self, line: u64, number: u64) {
        let found = (line, number);
        if self.first.is_none_or(|first| found < first) {
            self.first = Some(found);
        }
    }
}

/// Names and the index of their first definition.
type Index<'a> = HashMap<&'a [u8], usize>;

/// Indexes the first definition of each name and notes all further ones.
fn index_once<'a>(named: impl Iterator<Item = Named<'a>>, breaks: &mut Breaks) -> Index<'a> {
    let mut index = HashMap::new();
    for (position, Named { name, line }) in named.enumerate() {
        match index.entry(name.bytes) {
            Entry::Vacant(vacant) => {
                vacant.insert(position);
            }
            Entry::Occupied(_) => breaks.note(line, TWICE),
        }
    }
    index
}

/// The index of the map or section that each step names (0 for forks), if the document keeps the rules.
pub(crate) fn resolve(document: &Document) -> Result<Vec<usize>, Refusal> {
    let mut breaks = Breaks::default();
    let models = index_once(document.models.iter().map(|model| model.named), &mut breaks);
    check_list(document, &models, &mut breaks);
    check_ratios(document, &mut breaks);
    for map in &document.maps {
        let pins = &document.pins[map.first_pin..map.first_pin + map.pins];
        index_once(pins.iter().copied(), &mut breaks);
    }
    let mut resolver = Resolver {
        document,
        maps: maps_by_name(document, &mut breaks),
        sections: index_once(document.sections.iter().map(|section| section.named), &mut breaks),
        used: vec![false; document.sections.len()],
        targets: Vec::with_capacity(document.steps.len()),
        breaks,
    };
    for model in &document.models {
        resolver.model(model);
    }
    resolver.check_used();
    match resolver.breaks.first {
        Some((line, number)) => Err(Refusal { number, line }),
        None => Ok(resolver.targets),
    }
}

/// List and models name the same. The lines of the list stand in order and above all models, so that the first break
/// among them is enough; it comes at the latest where the list outgrows the bounded models.
fn check_list<'a>(document: &Document<'a>, models: &Index<'a>, breaks: &mut Breaks) {
    let mut listed = HashSet::new();
    for &Named { name, line } in &document.list {
        if !listed.insert(name.bytes) {
            return breaks.note(line, TWICE);
        }
        if !models.contains_key(name.bytes) {
            return breaks.note(line, LIST);
        }
    }
    for model in &document.models {
        if !listed.contains(model.named.name.bytes) {
            breaks.note(model.named.line, LIST);
        }
    }
}

/// An SGR means something in SLM_general alone.
fn check_ratios(document: &Document, breaks: &mut Breaks) {
    for model in &document.models {
        match model.ratio_line {
            Some(line) if model.model_type != ModelType::SingleGeneral => breaks.note(line, SGR),
            _ => {}
        }
    }
}

/// The indexes of all maps of each name, since an end means the first below its own line.
fn maps_by_name<'a>(document: &Document<'a>, breaks: &mut Breaks) -> HashMap<&'a [u8], Vec<usize>> {
    let mut maps: HashMap<&[u8], Vec<usize>> = HashMap::new();
    for (position, map) in document.maps.iter().enumerate() {
        let of_name = maps.entry(map.named.name.bytes).or_default();
        if !of_name.is_empty() {
            breaks.note(map.named.line, TWICE);
        }
        of_name.push(position);
    }
    maps
}

struct Resolver<'d, 'a> {
    document: &'d Document<'a>,
    maps: HashMap<&'a [u8], Vec<usize>>,
    sections: Index<'a>,
    used: Vec<bool>,
    targets: Vec<usize>,
    breaks: Breaks,
}

impl<'a> Resolver<'_, 'a> {
    fn model(&mut self, model: &Model) {
        let document = self.document;
        let mut sides = Sides::default();
        let mut pins = None;
        for (position, step) in document.steps[model.first_step..][..model.steps].iter().enumerate() {
            let target = match step.action {
                Action::End { map, side } => {
                    let target = self.find_map(map.bytes, step.line);
                    if let Some(target) = target {
                        if position == 0 {
                            pins = Some(document.maps[target].pins as u64);
                        }
                        self.check_count(pins, document.maps[target].pins as u64, step.line);
                        if sides.clash(target, side.map(|side| side.bytes)) {
                            self.breaks.note(step.line, SIDE);
                        }
                    }
                    target
                }
                Action::Section { section, amount } => self.section(model, section.bytes, amount, step, pins),
                Action::Fork | Action::Endfork => None,
            };
            self.targets.push(target.unwrap_or(0));
        }
    }

    fn find_map(&mut self, name: &[u8], line: u64) -> Option<usize> {
        let document = self.document;
        let of_name = self.maps.get(name).map_or(&[][..], Vec::as_slice);
        let found = of_name.iter().copied().find(|&map| document.maps[map].named.line > line);
        if found.is_none() {
            self.breaks.note(line, NO_MAP);
        }
        found
    }

    fn section(&mut self, model: &Model, name: &[u8], amount: Amount, step: &Step, pins: Option<u64>) -> Option<usize> {
        let Some(&target) = self.sections.get(name) else {
            self.breaks.note(step.line, NO_SECTION);
            return None;
        };
        self.used[target] = true;
        let section = &self.document.sections[target];
        match (amount, section.method) {
            (Amount::Multiple(_), Method::Lumped) | (Amount::Length(_), Method::Distributed) => {}
            _ => self.breaks.note(step.line, METHOD),
        }
        let is_diagonal = |&matrix: &usize| self.document.matrices[matrix].form == Form::Diagonal;
        if model.model_type != ModelType::Multiple && !section.matrices.iter().flatten().all(is_diagonal) {
            self.breaks.note(step.line, KIND);
        }
        self.check_count(pins, section.conductors.unwrap_or(0), step.line);
        Some(target)
    }

    /// Compares a count with the pins of the path's first map, if that is found.
    fn check_count(&mut self, pins: Option<u64>, count: u64, line: u64) {
        if pins.is_some_and(|pins| pins != count) {
            self.breaks.note(line, COUNT);
        }
    }

    fn check_used(&mut self) {
        for (section, used) in self.document.sections.iter().zip(&self.used) {
            if !used {
                self.breaks.note(section.named.line, UNUSED);
            }
        }
    }
}

/// The maps and sides of a path's ends so far.
#[derive(Default)]
struct Sides<'a> {
    maps: HashSet<usize>,
    ends: HashSet<(usize, Option<&'a [u8]>)>,
}

impl<'a> Sides<'a> {
    /// Adds an end and tells whether an earlier one on its map lacks a side or has the same, or this one lacks its.
    fn clash(&mut self, map: usize, side: Option<&'a [u8]>) -> bool {
        let first_on_map = self.maps.insert(map);
        let earlier_lacks = self.ends.contains(&(map, None));
        let new_end = self.ends.insert((map, side));
        !first_on_map && (side.is_none() || earlier_lacks || !new_end)
    }
}
