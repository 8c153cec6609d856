// generator.rs: generates files that break no rule, out of everything that the paper has.
// A plan settles first which names there are and how many pins and conductors go together; then the file is written along it.
use crate::random::Random;
use crate::writer::{number, positive, Writer};

/// The most forks in each other.
const DEPTH_MOST: usize = 8;

struct Plan {
    groups: Vec<Group>,
    models: Vec<Model>,
}

/// Models, maps and sections that all have the same count of pins or conductors.
struct Group {
    conductors: usize,
    /// All matrices are diagonal, so that models may be SLM.
    diagonal: bool,
    maps: Vec<Map>,
    sections: Vec<Section>,
}

struct Map {
    name: String,
    /// The map stands below this many models, which are those that may use it.
    models_above: usize,
}

#[derive(Clone)]
struct Section {
    name: String,
    distributed: bool,
}

struct Model {
    name: String,
    group: usize,
    /// No later model is of the same group: what the group has to use is used here at the latest.
    last: bool,
}

/// A valid file.
pub fn file(random: &mut Random) -> Vec<u8> {
    let plan = plan(random);
    let mut writer = Writer::new(random);
    write_header(&mut writer);
    write_family(&mut writer, &plan);
    write_sections(&mut writer, &plan);
    writer.keyword("End", "");
    if writer.random.percent(20) {
        for line in ["after the end", "[Begin Header] x", " [", "[Frequency]"] {
            writer.bare(line);
        }
    }
    writer.finish()
}

fn plan(random: &mut Random) -> Plan {
    let group_count = *random.pick(&[1, 1, 2, 3]);
    // Models, maps and sections have the same names, which are spaces apart.
    let mut model_names = names(random);
    let mut others = (model_names.clone(), model_names.clone());
    let mut models = Vec::new();
    for group in 0..group_count {
        models.extend((0..random.between(1, 2)).map(|_| group));
    }
    random.shuffle(&mut models);
    let model_count = models.len();
    let groups = (0..group_count).map(|_| group(random, &mut others.0, &mut others.1, model_count)).collect();
    let last = |place: usize| !models[place + 1..].contains(&models[place]);
    let models =
        (0..model_count).map(|place| Model { name: model_names(), group: models[place], last: last(place) }).collect();
    Plan { groups, models }
}

fn group(
    random: &mut Random,
    map_names: &mut impl FnMut() -> String,
    section_names: &mut impl FnMut() -> String,
    models: usize,
) -> Group {
    let most = *random.pick(&[1, 2, 4, 4, 6, 12]);
    let conductors = random.between(1, most);
    let diagonal = random.percent(35);
    // One map stands below all models, so that each of them has one.
    let mut maps = vec![Map { name: map_names(), models_above: models }];
    for _ in 0..random.below(3) {
        maps.push(Map { name: map_names(), models_above: random.between(0, models) });
    }
    let sections =
        (0..random.between(1, 3)).map(|_| Section { name: section_names(), distributed: random.percent(50) }).collect();
    Group { conductors, diagonal, maps, sections }
}

/// Names that are all different and hold every byte that a name may have. Some are long, some differ in their last byte only.
fn names(random: &mut Random) -> impl FnMut() -> String + Clone {
    let front = *random.pick(&["S", "N", "gnd", "Row", "a=b:", "x]y[", "\"~!", "Section"]);
    let filling = "_".repeat(*random.pick(&[0, 0, 0, 1, 7, 60]));
    let mut count = 0;
    move || {
        count += 1;
        format!("{front}{filling}{count}")
    }
}

fn write_header(writer: &mut Writer) {
    if writer.random.percent(20) {
        for line in ["above the header", "[bad", " [Begin Header]", "[Begin Header]x", "[End]"] {
            writer.bare(line);
        }
    }
    writer.keyword("Begin Header", "");
    writer.keyword("ICM Ver", "1.1");
    let mut keywords = vec!["File Name", "File Rev"];
    let optional =
        ["Date", "Redistribution", "Source", "Notes", "Disclaimer", "Copyright", "Support", "Redistribution Text"];
    let often = *writer.random.pick(&[0, 10, 60]);
    keywords.extend(optional.iter().filter(|_| writer.random.percent(often)));
    writer.random.shuffle(&mut keywords);
    for keyword in keywords {
        match keyword {
            "File Name" => {
                let name = *writer.random.pick(&["t.icm", "a-b_9.i", "0.ic", "long-name-of-a-file.icm"]);
                writer.keyword(keyword, name);
            }
            "File Rev" | "Redistribution" => writer.keyword(keyword, "GND 0.1"),
            "Date" => writer.keyword(keyword, "the first of January, 12:00, of year one"),
            _ => write_text_block(writer, keyword),
        }
    }
    writer.keyword("End Header", "");
}

/// A keyword whose lines are not judged, so they look like all kinds of other lines.
fn write_text_block(writer: &mut Writer, keyword: &str) {
    let argument = *writer.random.pick(&["", "a text", "[x] ="]);
    writer.keyword(keyword, argument);
    for _ in 0..writer.random.below(4) {
        match writer.random.below(3) {
            0 => writer.bare(" [x"),
            1 => writer.words(&["SGR", "x"]),
            _ => writer.words(&["Section", "Mult=0", "=", "]"]),
        }
    }
}

fn write_family(writer: &mut Writer, plan: &Plan) {
    writer.keyword("Begin ICM Family", "GND and more");
    let mut parts = vec!["Manufacturer"];
    if writer.random.percent(20) {
        parts.push("ICM Family Description");
    }
    writer.random.shuffle(&mut parts);
    for part in parts {
        match part {
            "Manufacturer" => writer.keyword(part, "NA"),
            _ => write_text_block(writer, part),
        }
    }
    write_list(writer, plan);
    for above in 0..=plan.models.len() {
        for group in &plan.groups {
            for map in group.maps.iter().filter(|map| map.models_above == above) {
                write_map(writer, map, group.conductors);
            }
        }
        if let Some(model) = plan.models.get(above) {
            write_model(writer, plan, model, above);
        }
    }
    writer.keyword("End ICM Family", "");
}

fn write_list(writer: &mut Writer, plan: &Plan) {
    writer.keyword("ICM Model List", "");
    let mut order: Vec<&Model> = plan.models.iter().collect();
    writer.random.shuffle(&mut order);
    for model in order {
        match writer.random.below(3) {
            0 => writer.words(&[&model.name, "and", "a", "remark"]),
            _ => writer.words(&[&model.name]),
        }
    }
}

fn write_map(writer: &mut Writer, map: &Map, pins: usize) {
    writer.keyword("ICM Pin Map", &map.name);
    let order = *writer.random.pick(&["Row_ordered", "Column_ordered", "Un_ordered"]);
    writer.words(&["Pin_order", order]);
    if order != "Un_ordered" {
        // as few places as the pins need, or some more: places may be missing
        let rows = writer.random.between(1, pins);
        let columns = ((pins - 1) / rows + 1 + writer.random.below(3)).min(256);
        let mut sizes = [("Num_of_rows", rows), ("Num_of_columns", columns)];
        writer.random.shuffle(&mut sizes);
        for (name, size) in sizes {
            let line = format!("{name}{}{}", writer.equals(), writer.integer(size));
            writer.words(&[&line]);
        }
    }
    writer.words(&["Pin_list"]);
    let odd = ["GND", "NC", "Pin_list", "Pin_order", "=", "]", "Num_of_rows=0"];
    let first_odd = if writer.random.percent(25) { writer.random.between(0, odd.len()) } else { odd.len() };
    for pin in 0..pins {
        let name = odd.get(first_odd + pin).map_or_else(|| format!("A{pin}"), |name| name.to_string());
        match writer.random.below(5) {
            0 => writer.words(&[&name, "SIGNAL"]),
            _ => writer.words(&[&name]),
        }
    }
}

fn write_model(writer: &mut Writer, plan: &Plan, model: &Model, models_above: usize) {
    let group = &plan.groups[model.group];
    writer.keyword("Begin ICM Model", &model.name);
    write_model_head(writer, group.diagonal);
    let mut parts = vec!["Tree Path Description"];
    if writer.random.percent(25) {
        parts.push("ICM Model Description");
    }
    writer.random.shuffle(&mut parts);
    for part in parts {
        match part {
            "Tree Path Description" => {
                writer.keyword(part, "");
                let maps = group.maps.iter().filter(|map| map.models_above > models_above).collect();
                let deep = writer.random.percent(15);
                PathWriter { maps, ends: Vec::new(), closing: 0, sections: &group.sections, used: 0, deep, room: 25 }
                    .write(writer, model.last);
            }
            _ => write_text_block(writer, part),
        }
    }
    writer.keyword("End ICM Model", "");
}

fn write_model_head(writer: &mut Writer, diagonal: bool) {
    let types = if diagonal { &["SLM_general", "SLM_quiescent", "MLM"][..] } else { &["MLM"] };
    let model_type = *writer.random.pick(types);
    let mut lines = vec![format!("ICM_model_type {model_type}")];
    if model_type == "SLM_general" {
        let ratio = *writer.random.pick(&[1, 3, 65_535]);
        lines.push(format!("SGR {}:1", writer.integer(ratio)));
    }
    if writer.random.percent(30) {
        lines.push(format!("Ref_impedance{}{}", writer.equals(), number(writer.random)));
    }
    writer.random.shuffle(&mut lines);
    for line in lines {
        writer.words(&line.split(' ').filter(|word| !word.is_empty()).collect::<Vec<_>>());
    }
}

/// Writes one path and keeps count of what it has used.
struct PathWriter<'p> {
    /// The maps below the model, of which it may use any.
    maps: Vec<&'p Map>,
    /// Index of the map and whether a side was given, for each end so far.
    ends: Vec<(usize, bool)>,
    /// Index of the map kept for the path's last end: ends before it that are on this map all have sides.
    closing: usize,
    sections: &'p [Section],
    /// How many of the sections stand in the path.
    used: usize,
    /// Forks go on opening to the greatest depth.
    deep: bool,
    /// How many steps may still be written, the last ones not counted.
    room: usize,
}

impl PathWriter<'_> {
    fn write(mut self, writer: &mut Writer, last: bool) {
        self.closing = writer.random.below(self.maps.len());
        self.end(writer, false);
        self.section(writer);
        self.items(writer, 0);
        while last && self.used < self.sections.len() {
            self.section(writer);
        }
        self.end(writer, true);
    }

    /// An end. A map that has one without a side can have no other, and then this one is not written; the closing map never comes to that.
    fn end(&mut self, writer: &mut Writer, closes: bool) {
        let map = if closes { self.closing } else { writer.random.below(self.maps.len()) };
        let earlier = self.ends.iter().filter(|(of, _)| *of == map).count();
        if self.ends.contains(&(map, false)) {
            return;
        }
        let needs_side = earlier > 0 || (map == self.closing && !closes);
        let sided = needs_side || writer.random.percent(40);
        writer.words(&["Model_pinmap", &self.maps[map].name]);
        if sided {
            writer.words(&["Side", &format!("side{earlier}")]);
        }
        self.ends.push((map, sided));
    }

    fn section(&mut self, writer: &mut Writer) {
        // Those not used yet come first, since each has to be used.
        let section = match self.sections.get(self.used) {
            Some(section) if writer.random.percent(70) => {
                self.used += 1;
                section
            }
            _ => writer.random.pick(&self.sections[..self.used.max(1)]),
        };
        self.used = self.used.max(1);
        let amount = if section.distributed {
            let length = *writer.random.pick(&["", "+"]);
            format!("Len{}{length}{}", writer.equals(), positive(writer.random))
        } else {
            let most = *writer.random.pick(&[1, 9, 65_535]);
            let multiple = writer.random.between(1, most);
            format!("Mult{}{}", writer.equals(), writer.integer(multiple))
        };
        writer.words(&["Section", &amount, &section.name]);
    }

    /// Items at a depth: sections and fork blocks, which hold items again.
    fn items(&mut self, writer: &mut Writer, depth: usize) {
        let deepen = self.deep && depth < DEPTH_MOST;
        for turn in 0..writer.random.below(4).max(usize::from(deepen)) {
            if self.room < 3 && !deepen {
                return;
            }
            self.room = self.room.saturating_sub(3);
            if deepen && turn == 0 || depth < DEPTH_MOST && writer.random.percent(40) {
                self.fork(writer, depth);
            } else {
                self.section(writer);
            }
        }
        if depth == DEPTH_MOST {
            self.deep = false;
        }
    }

    fn fork(&mut self, writer: &mut Writer, depth: usize) {
        writer.words(&["Fork"]);
        self.items(writer, depth + 1);
        if writer.random.percent(40) {
            self.end(writer, false);
        }
        writer.words(&["Endfork"]);
    }
}

fn write_sections(writer: &mut Writer, plan: &Plan) {
    let mut sections: Vec<(&Group, &Section)> =
        plan.groups.iter().flat_map(|group| group.sections.iter().map(move |section| (group, section))).collect();
    writer.random.shuffle(&mut sections);
    for (group, section) in sections {
        writer.keyword("Begin ICM Section", &section.name);
        writer.keyword("Derivation Method", if section.distributed { "Distributed" } else { "Lumped" });
        for kind in kinds(writer.random, section.distributed) {
            let forms = ["Diagonal_matrix", "Full_matrix", "Banded_matrix", "Sparse_matrix"];
            let form = if group.diagonal { forms[0] } else { *writer.random.pick(&forms) };
            writer.keyword(kind, form);
            write_matrix(writer, form, group.conductors);
        }
        writer.keyword("End ICM Section", "");
    }
}

/// Which matrices a section has: at least one, and L and C where it is Distributed.
fn kinds(random: &mut Random, distributed: bool) -> Vec<&'static str> {
    let (needed, free) = match distributed {
        true => {
            (vec!["Inductance Matrix", "Capacitance Matrix"], ["Resistance Matrix", "Conductance Matrix"].as_slice())
        }
        false => {
            let all = &["Resistance Matrix", "Inductance Matrix", "Conductance Matrix", "Capacitance Matrix"];
            let first = random.below(4);
            (vec![all[first]], &all[first + 1..])
        }
    };
    let mut kinds = needed;
    kinds.extend(free.iter().filter(|_| random.percent(30)));
    random.shuffle(&mut kinds);
    kinds
}

fn write_matrix(writer: &mut Writer, form: &str, conductors: usize) {
    match form {
        "Diagonal_matrix" => write_numbers(writer, conductors),
        "Full_matrix" => {
            for row in 1..=conductors {
                write_row(writer, row);
                write_numbers(writer, conductors - row + 1);
            }
        }
        "Banded_matrix" => {
            let most = *writer.random.pick(&[0, 1, conductors - 1, conductors, 255]);
            let width = writer.random.between(0, most);
            let argument = writer.integer(width);
            writer.keyword("Bandwidth", &argument);
            for row in 1..=conductors {
                write_row(writer, row);
                write_numbers(writer, 1 + width.min(conductors - row));
            }
        }
        _ => write_sparse(writer, conductors),
    }
}

fn write_row(writer: &mut Writer, row: usize) {
    let argument = writer.integer(row);
    writer.keyword("Row", &argument);
}

fn write_numbers(writer: &mut Writer, count: usize) {
    let numbers: Vec<String> = (0..count).map(|_| number(writer.random)).collect();
    writer.numbers(&numbers);
}

/// The greatest row or column named has to be the conductor count: the first row named has that column, or the last row is named.
fn write_sparse(writer: &mut Writer, conductors: usize) {
    let often = *writer.random.pick(&[20, 50, 100]);
    let mut first = true;
    let reaches_in_first = writer.random.percent(50);
    for row in 1..=conductors {
        let is_last = row == conductors;
        if !(is_last && (first || !reaches_in_first) || writer.random.percent(often)) {
            continue;
        }
        write_row(writer, row);
        for column in row..=conductors {
            // The first row named has a number whatever is drawn, since a matrix without one is no matrix.
            if first && column == conductors || writer.random.percent(often) {
                let words = [writer.integer(column), number(writer.random)];
                writer.words(&[&words[0], &words[1]]);
            }
        }
        first = false;
    }
}
