//! Makes a question that shows a difference smaller, as long as it still shows one.

use judge::mesh::{Corner, INDICES, WIDTH};
use judge::reading::hems::{self, COORDINATE};
use judge::reading::numbers::{mesh_number, stated_rooms};
use judge::reading::scan::{FRONT, HEADER, TRIANGLE};
use judge::rust::{self, has_its_cosines};
use judge::{About, Call, Mesh, Question, MISSING};
use std::ops::Range;

/// How many smaller questions are tried.
const TRIES: usize = 30_000;

struct Shrinker<'a> {
    call: Call,
    best: Question,
    differs: &'a dyn Fn(&Question) -> bool,
    tries: usize,
    found: usize,
}

/// A question that still `differs` and that none of the steps below makes smaller.
pub fn shrink(call: Call, question: &Question, differs: &dyn Fn(&Question) -> bool) -> Question {
    let mut shrinker = Shrinker { call, best: question.clone(), differs, tries: 0, found: 0 };
    loop {
        let found = shrinker.found;
        if call.reads_a_file() {
            match call {
                _ if call.about() == About::Scan => shrinker.triangles(),
                Call::HemSheet => shrinker.records_with_triples(),
                _ => shrinker.records(),
            }
            shrinker.bytes();
        } else {
            shrinker.faces();
            shrinker.corners();
            shrinker.raw_lists();
            shrinker.sizes();
            shrinker.entries();
            shrinker.indices();
            shrinker.numbers();
        }
        if call == Call::LoopSubdivision {
            shrinker.cosines();
        }
        if call == Call::ListHems {
            shrinker.triples();
        }
        shrinker.rooms();
        if shrinker.found == found {
            return shrinker.best;
        }
    }
}

impl Shrinker<'_> {
    /// Takes the candidate if it still differs.
    fn attempt(&mut self, candidate: Question) -> bool {
        self.tries += 1;
        let better = self.tries <= TRIES && (self.differs)(&candidate);
        if better {
            self.found += 1;
            self.best = candidate;
        }
        better
    }

    /// The same with another mesh. Rooms are as much too long or too short for it as they were.
    fn attempt_mesh(&mut self, mesh: Mesh) -> bool {
        let triples = self.best.triples.clone();
        self.attempt_mesh_with(mesh, triples)
    }

    fn attempt_mesh_with(&mut self, mesh: Mesh, triples: Vec<i32>) -> bool {
        let (old, new) = (stated_rooms(self.call, &self.best.mesh), stated_rooms(self.call, &mesh));
        let rooms = self.best.rooms.iter().zip(old.iter().zip(&new)).map(|(room, (old, new))| (room + new).saturating_sub(*old));
        let candidate = Question { mesh, triples, rooms: rooms.collect(), ..self.best.clone() };
        self.attempt(candidate)
    }

    /// Leaves out parts, large ones first, of something that has a length.
    fn leave_out(&mut self, length: impl Fn(&Question) -> usize, without: impl Fn(&mut Shrinker, Range<usize>) -> bool) {
        let mut part = length(&self.best);
        while part > 0 {
            let mut start = 0;
            while start < length(&self.best) {
                let end = (start + part).min(length(&self.best));
                if !without(self, start..end) {
                    start += part;
                }
            }
            part /= 2;
        }
    }

    /// Leaves out triangles of a scan, and as many from its count.
    fn triangles(&mut self) {
        self.leave_out(
            |question| question.file.len().saturating_sub(FRONT) / TRIANGLE,
            |shrinker, range| {
                let mut file = shrinker.best.file.clone();
                let count = u32::from_le_bytes(file[HEADER..FRONT].try_into().unwrap());
                file[HEADER..FRONT].copy_from_slice(&count.saturating_sub(range.len() as u32).to_le_bytes());
                file.drain(FRONT + TRIANGLE * range.start..FRONT + TRIANGLE * range.end);
                let candidate = Question { file, ..shrinker.best.clone() };
                shrinker.attempt(candidate)
            },
        );
    }

    /// Leaves out records of a panel file.
    fn records(&mut self) {
        self.leave_out(
            |question| records(&question.file).len(),
            |shrinker, range| {
                let mut records = records(&shrinker.best.file);
                records.drain(range);
                let candidate = Question { file: records.concat(), ..shrinker.best.clone() };
                shrinker.attempt(candidate)
            },
        );
    }

    /// Leaves out records of a panel file that has a count before it and triples behind it; with a position goes its triple.
    fn records_with_triples(&mut self) {
        self.leave_out(
            |question| hems::parts(&question.file).map_or(0, |(panel, _)| records(panel).len()),
            |shrinker, range| {
                let (panel, behind) = hems::parts(&shrinker.best.file).unwrap();
                let (mut records, mut triples) = (records(panel), behind.chunks(3 * COORDINATE).collect::<Vec<_>>());
                let is_position = |record: &&[u8]| record.get(2) == Some(&1);
                let before = records[..range.start].iter().filter(|record| is_position(record)).count();
                let gone = records.drain(range).filter(is_position).count();
                triples.drain(before.min(triples.len())..(before + gone).min(triples.len()));
                let panel = records.concat();
                let file = [&(panel.len() as u32).to_le_bytes()[..], &panel, &triples.concat()].concat();
                let candidate = Question { file, ..shrinker.best.clone() };
                shrinker.attempt(candidate)
            },
        );
    }

    /// Leaves out bytes, then makes bytes 0.
    fn bytes(&mut self) {
        self.leave_out(
            |question| question.file.len(),
            |shrinker, range| {
                let mut file = shrinker.best.file.clone();
                file.drain(range);
                let candidate = Question { file, ..shrinker.best.clone() };
                shrinker.attempt(candidate)
            },
        );
        for at in 0..self.best.file.len() {
            if self.best.file[at] != 0 {
                let mut candidate = self.best.clone();
                candidate.file[at] = 0;
                self.attempt(candidate);
            }
        }
    }

    /// Whether the faces can be told from the lists.
    fn has_faces(question: &Question) -> bool {
        ![1, 2].contains(&mesh_number(&question.mesh))
    }

    fn faces(&mut self) {
        self.leave_out(
            |question| if Self::has_faces(question) { question.mesh.sizes.len() } else { 0 },
            |shrinker, range| {
                let mut faces = shrinker.best.mesh.faces();
                faces.drain(range);
                let mesh = shrinker.best.mesh.with_faces(&faces);
                shrinker.attempt_mesh(mesh)
            },
        );
    }

    fn corners(&mut self) {
        if !Self::has_faces(&self.best) {
            return;
        }
        for face in 0..self.best.mesh.sizes.len() {
            let mut corner = 0;
            while corner < self.best.mesh.sizes[face] as usize {
                let mut faces: Vec<Vec<Corner>> = self.best.mesh.faces();
                faces[face].remove(corner);
                let mesh = self.best.mesh.with_faces(&faces);
                if !self.attempt_mesh(mesh) {
                    corner += 1;
                }
            }
        }
    }

    /// Leaves out numbers of each list, where the lists do not fit together.
    fn raw_lists(&mut self) {
        if Self::has_faces(&self.best) {
            return;
        }
        macro_rules! list {
            ($name: ident) => {
                self.leave_out(
                    |question| question.mesh.$name.len(),
                    |shrinker, range| {
                        let mut mesh = shrinker.best.mesh.clone();
                        mesh.$name.drain(range);
                        shrinker.attempt_mesh(mesh)
                    },
                )
            };
        }
        list!(positions);
        list!(textures);
        list!(normals);
        list!(corners);
        list!(sizes);
    }

    /// Joins two sizes, and takes corners from a size and from the corners alike.
    fn sizes(&mut self) {
        let mut i = 0;
        while i < self.best.mesh.sizes.len() {
            let mut mesh = self.best.mesh.clone();
            let size = mesh.sizes.remove(i);
            if let Some(before) = mesh.sizes.get_mut(i.wrapping_sub(1)) {
                *before = before.wrapping_add(size);
                if self.attempt_mesh(mesh) {
                    continue;
                }
            }
            let mut less = (size as usize).min(self.best.mesh.corner_count());
            while less > 0 {
                let mut mesh = self.best.mesh.clone();
                mesh.sizes[i] -= less.min(mesh.sizes[i] as usize) as u32;
                mesh.corners.truncate(mesh.corners.len().saturating_sub(WIDTH * less));
                self.attempt_mesh(mesh);
                less /= 2;
            }
            i += 1;
        }
    }

    /// Leaves out entries; an index of one of them becomes missing, or 0 for a position, whose triple goes with it.
    fn entries(&mut self) {
        macro_rules! list {
            ($name: ident, $column: expr, $width: expr, $gone: expr) => {
                self.leave_out(
                    |question| question.mesh.$name.len() / $width,
                    |shrinker, range| {
                        let mut mesh = shrinker.best.mesh.clone();
                        mesh.$name.drain(range.start * $width..range.end * $width);
                        renumber(&mut mesh, $column, range, $gone);
                        shrinker.attempt_mesh(mesh)
                    },
                )
            };
        }
        self.leave_out(
            |question| question.mesh.positions.len() / 3,
            |shrinker, range| {
                let (mut mesh, mut triples) = (shrinker.best.mesh.clone(), shrinker.best.triples.clone());
                mesh.positions.drain(3 * range.start..3 * range.end);
                triples.drain((3 * range.start).min(triples.len())..(3 * range.end).min(triples.len()));
                renumber(&mut mesh, 0, range, 0);
                shrinker.attempt_mesh_with(mesh, triples)
            },
        );
        list!(textures, 1, 2, MISSING);
        list!(normals, 2, 3, MISSING);
    }

    /// Makes indices missing, and positions and marks lower.
    fn indices(&mut self) {
        for at in 0..self.best.mesh.corners.len() {
            let index = self.best.mesh.corners[at];
            let smaller = if [0, INDICES].contains(&(at % WIDTH)) { vec![0, 1, 2] } else { vec![MISSING, 0] };
            for new in smaller.into_iter().take_while(|new| *new != index) {
                let mut mesh = self.best.mesh.clone();
                mesh.corners[at] = new;
                if self.attempt_mesh(mesh) {
                    break;
                }
            }
        }
    }

    /// Makes coordinates, the tolerance and the number of the face simpler.
    fn numbers(&mut self) {
        macro_rules! list {
            ($name: ident) => {
                for at in 0..self.best.mesh.$name.len() {
                    let old = self.best.mesh.$name[at];
                    for new in [0.0, 1.0, 0.5, old.round()].into_iter().take_while(|new| new.to_bits() != old.to_bits()) {
                        let mut mesh = self.best.mesh.clone();
                        mesh.$name[at] = new;
                        if self.attempt_mesh(mesh) {
                            break;
                        }
                    }
                }
            };
        }
        list!(positions);
        list!(textures);
        list!(normals);
        if self.best.tolerance != 1.0 {
            let candidate = Question { tolerance: 1.0, ..self.best.clone() };
            self.attempt(candidate);
        }
        for face in (0..self.best.face.min(3)).rev() {
            let candidate = Question { face, ..self.best.clone() };
            self.attempt(candidate);
        }
    }

    /// Leaves out triples, and makes coordinates simpler.
    fn triples(&mut self) {
        self.leave_out(
            |question| question.triples.len(),
            |shrinker, range| {
                let mut candidate = shrinker.best.clone();
                candidate.triples.drain(range);
                shrinker.attempt(candidate)
            },
        );
        for at in 0..self.best.triples.len() {
            let old = self.best.triples[at];
            for new in [0, 1, old / 1_000, old.signum() * 1_000_000].into_iter().take_while(|new| *new != old) {
                let mut candidate = self.best.clone();
                candidate.triples[at] = new;
                if self.attempt(candidate) {
                    break;
                }
            }
        }
    }

    /// Takes the cosines that the Rust has, in one list or in both.
    fn cosines(&mut self) {
        if has_its_cosines(&self.best) {
            return;
        }
        let [ones, twos] = rust::cosines();
        let both = Question { ones: ones.clone(), twos: twos.clone(), ..self.best.clone() };
        if self.attempt(both) {
            return;
        }
        for other in [Question { ones, ..self.best.clone() }, Question { twos, ..self.best.clone() }] {
            if !same_cosines(&other, &self.best) && self.attempt(other) {
                return;
            }
        }
    }

    /// Makes the rooms exact.
    fn rooms(&mut self) {
        let rooms = stated_rooms(self.call, &self.best.mesh);
        if rooms != self.best.rooms {
            let candidate = Question { rooms, ..self.best.clone() };
            self.attempt(candidate);
        }
    }
}

fn same_cosines(one: &Question, other: &Question) -> bool {
    let bits = |question: &Question| question.ones.iter().chain(&question.twos).map(|x| x.to_bits()).collect::<Vec<_>>();
    bits(one) == bits(other)
}

/// A file's records, each with its header, as far as the headers tell; the last may be cut.
fn records(file: &[u8]) -> Vec<&[u8]> {
    let (mut rest, mut records) = (file, vec![]);
    while !rest.is_empty() {
        let length = if rest.len() < 2 { rest.len() } else { 4 + u16::from_le_bytes([rest[0], rest[1]]) as usize };
        let (record, behind) = rest.split_at(length.min(rest.len()));
        records.push(record);
        rest = behind;
    }
    records
}

/// Gives a column the numbers that are right once the entries of a range have gone.
fn renumber(mesh: &mut Mesh, column: usize, range: Range<usize>, gone: u32) {
    for index in mesh.corners.iter_mut().skip(column).step_by(WIDTH) {
        let old = *index as usize;
        if *index != MISSING && old >= range.end {
            *index -= range.len() as u32;
        } else if range.contains(&old) {
            *index = gone;
        }
    }
}
