//! Valid dossiers, made step by step: a vocabulary, lines that earlier lines license, claims, and models that are true.
//! On request each is preceded by records that just miss.

use crate::interpretation::Interpretation;
use crate::random::Random;
use independent::concepts::Concept;
use independent::docket::Docket;
use independent::intake::Size;
use independent::labels::Label;
use independent::roles::Role;
use independent::writer::Written;
use std::collections::BTreeSet;

type Members = BTreeSet<u16>;

/// How many of each there are, as near as it can be had.
#[derive(Clone, Copy, Debug)]
pub struct Plan {
    pub names: usize,
    pub role_names: usize,
    pub role_axioms: usize,
    pub concepts: usize,
    pub axioms: usize,
    pub steps: usize,
    pub models: usize,
    pub elements: usize,
    pub edges: usize,
    /// How often in a hundred a record is preceded by one that just misses.
    pub misses: usize,
    /// How often in a hundred a step is about a model.
    pub about_models: usize,
    /// Labels larger than this are not filed.
    pub label: usize,
}

pub struct World {
    pub random: Random,
    pub docket: Docket,
    pub records: Vec<Written>,
    plan: Plan,
    names: Vec<u16>,
    role_names: Vec<u16>,
    lines: Vec<Members>,
    claims: Vec<(Members, bool)>,
    models: Vec<Interpretation>,
}

fn members(label: &Label) -> Members {
    label.iter().collect()
}

impl World {
    pub fn new(mut random: Random, size: Size, plan: Plan) -> Self {
        let pool = |random: &mut Random, count: usize, of: usize| -> Vec<u16> {
            (0..count)
                .map(|at| match random.below(6) {
                    0 => of - 1 - at,
                    1 => random.below(of),
                    _ => at,
                } as u16)
                .collect()
        };
        let names = pool(&mut random, plan.names, 1024);
        let role_names = pool(&mut random, plan.role_names, 64);
        World {
            random,
            docket: Docket::new(size.concepts, size.lines),
            records: Vec::new(),
            plan,
            names,
            role_names,
            lines: Vec::new(),
            claims: Vec::new(),
            models: Vec::new(),
        }
    }

    /// A whole dossier by the plan.
    pub fn make(mut self) -> World {
        self.vocabulary();
        self.seal();
        self.evidence();
        self
    }

    /// Writes a record down and keeps the docket in step.
    pub fn file(&mut self, record: Written) -> Option<u16> {
        let entry = self.docket.take(record.kind, &record.body()).ok();
        if entry.is_some() {
            match record.kind {
                7 => self.lines.extend(self.docket.book().lines().last().map(members)),
                8 => self.claims.push((record.fields.iter().copied().collect(), true)),
                9 | 10 => self.claims[usize::from(record.fields[0])].1 = false,
                _ => {}
            }
        }
        self.records.push(record);
        entry.map(|number| number as u16)
    }

    fn missing(&mut self) -> bool {
        self.random.percent(self.plan.misses)
    }

    // Vocabulary

    fn role(&mut self) -> Role {
        let number = self.random.one_of(&self.role_names) * 2 + self.random.below(2) as u16;
        Role::new(number).expect("a role name is below 64")
    }

    fn count(&self) -> usize {
        self.docket.concepts().count()
    }

    fn any_concept(&mut self) -> Option<u16> {
        match self.count() {
            0 => None,
            count => Some(self.random.below(count) as u16),
        }
    }

    fn file_concept(&mut self, concept: Concept) -> Option<u16> {
        if self.missing() {
            let missed = self.missed_concept();
            self.file(missed);
        }
        self.file(concept_record(concept))
    }

    fn missed_concept(&mut self) -> Written {
        let (count, tag) = (self.count() as u16, self.random.below(9) as u16);
        let a = self
            .random
            .one_of(&[0, 1, count, count.wrapping_sub(1), 127, 128, 1023, 1024]);
        let b = self.random.one_of(&[0, 0, 1, count, count + 1]);
        Written::new(3, [tag, a, b])
    }

    /// The number of a concept, which is filed if it doesn't stand.
    fn need(&mut self, concept: Concept) -> Option<u16> {
        let standing: Vec<u16> = (0..self.count() as u16)
            .filter(|&number| self.docket.concepts().get(number) == concept)
            .collect();
        match self.random.pick(&standing) {
            Some(&number) if !self.random.percent(4) => Some(number),
            _ => self.file_concept(concept),
        }
    }

    /// The mate of a concept, which is filed and paired if need be.
    fn mate(&mut self, number: u16) -> Option<u16> {
        if let Some(mate) = self.docket.concepts().mate(number) {
            return Some(mate);
        }
        let opposite = match self.docket.concepts().get(number) {
            Concept::Top => Concept::Bottom,
            Concept::Bottom => Concept::Top,
            Concept::Name(name) => Concept::NotName(name),
            Concept::NotName(name) => Concept::Name(name),
            Concept::And(a, b) => Concept::Or(self.mate(a)?, self.mate(b)?),
            Concept::Or(a, b) => Concept::And(self.mate(a)?, self.mate(b)?),
            Concept::Only(role, part) => Concept::Exists(role, self.mate(part)?),
            Concept::Exists(role, part) => Concept::Only(role, self.mate(part)?),
        };
        // Pairing the parts may have paired this one.
        if let Some(mate) = self.docket.concepts().mate(number) {
            return Some(mate);
        }
        if self.missing() {
            let near = self.near_opposite(opposite);
            if let Some(near) = self.need(near) {
                self.file(Written::new(4, [number, near]));
            }
            if let Some(mate) = self.docket.concepts().mate(number) {
                return Some(mate);
            }
        }
        let free = (0..self.count() as u16).find(|&other| {
            self.docket.concepts().get(other) == opposite && self.docket.concepts().mate(other).is_none()
        });
        let mate = match free {
            Some(mate) => mate,
            None => self.file_concept(opposite)?,
        };
        if self.missing() {
            let (a, b) = (self.random.below(self.count() + 1), self.random.below(self.count() + 1));
            let missed = match self.random.below(4) {
                0 => [number, number],
                1 => [a as u16, mate],
                2 => [number, b as u16],
                _ => [a as u16, b as u16],
            };
            self.file(Written::new(4, missed));
        }
        let pair = if self.random.percent(50) {
            [number, mate]
        } else {
            [mate, number]
        };
        self.file(Written::new(4, pair));
        self.docket.concepts().mate(number)
    }

    /// What looks much like this concept, and now and then is it.
    fn near_opposite(&mut self, opposite: Concept) -> Concept {
        let any = self.random.below(self.count()) as u16;
        let way = self.random.below(3);
        match opposite {
            Concept::Name(name) | Concept::NotName(name) => match way {
                0 => Concept::Name(name),
                1 => Concept::NotName(name),
                _ => Concept::NotName(self.random.one_of(&self.names)),
            },
            Concept::And(a, b) => match way {
                0 => Concept::And(b, a),
                1 => Concept::Or(a, b),
                _ => Concept::And(a, any),
            },
            Concept::Or(a, b) => match way {
                0 => Concept::Or(b, a),
                1 => Concept::And(a, b),
                _ => Concept::Or(any, b),
            },
            Concept::Only(role, part) => match way {
                0 => Concept::Only(role.inverse(), part),
                1 => Concept::Exists(role, part),
                _ => Concept::Only(self.role(), any),
            },
            Concept::Exists(role, part) => match way {
                0 => Concept::Exists(role.inverse(), part),
                1 => Concept::Only(role, part),
                _ => Concept::Exists(self.role(), any),
            },
            Concept::Top | Concept::Bottom => Concept::Or(any, any),
        }
    }

    fn random_concept(&mut self) -> Option<u16> {
        let (a, b) = (self.any_concept(), self.any_concept());
        let concept = match (self.random.below(12), a, b) {
            (0, ..) => Concept::Top,
            (1, ..) => Concept::Bottom,
            (4 | 5, Some(a), Some(b)) => Concept::And(a, b),
            (6 | 7, Some(a), Some(b)) => Concept::Or(a, b),
            (8 | 9, Some(a), _) => Concept::Only(self.role(), a),
            (10 | 11, Some(a), _) => Concept::Exists(self.role(), a),
            (2, ..) => Concept::NotName(self.random.one_of(&self.names)),
            _ => Concept::Name(self.random.one_of(&self.names)),
        };
        let number = self.need(concept)?;
        if self.random.percent(85) {
            self.mate(number);
        }
        Some(number)
    }

    pub fn vocabulary(&mut self) {
        for _ in 0..self.plan.role_axioms {
            if self.missing() {
                let far = self.random.one_of(&[127, 128, 65535]);
                let near = self.role().number() as u16;
                let missed = match self.random.below(3) {
                    0 => Written::new(1, [far, near]),
                    1 => Written::new(1, [near, far]),
                    _ => Written::new(2, [far]),
                };
                self.file(missed);
            }
            let (lower, upper) = (self.role().number() as u16, self.role().number() as u16);
            let record = if self.random.percent(35) {
                Written::new(2, [upper])
            } else {
                Written::new(1, [lower, upper])
            };
            self.file(record);
        }
        while self.count() < self.plan.concepts {
            if self.random_concept().is_none() {
                break;
            }
        }
        for _ in 0..self.plan.models {
            let size = self.random.between(1, self.plan.elements) as u16;
            let edges = self.random.below(self.plan.edges + 1);
            let axioms = self.docket.roles().axioms().to_vec();
            self.models.extend(Interpretation::random(
                &mut self.random,
                size,
                &self.names,
                &self.role_names,
                edges,
                &axioms,
            ));
        }
        self.axioms();
    }

    /// Axioms that hold in every model at hand; if there is no model, any.
    fn axioms(&mut self) {
        let evaluated: Vec<_> = self
            .models
            .iter()
            .map(|model| model.evaluate(self.docket.concepts().list()))
            .collect();
        let holding: Vec<u16> = (0..self.count())
            .filter(|&concept| evaluated.iter().all(|rows| rows[concept].iter().all(|&holds| holds)))
            .map(|concept| concept as u16)
            .collect();
        for _ in 0..self.plan.axioms {
            if self.missing() {
                let missed = self.count() + self.random.below(2);
                self.file(Written::new(5, [missed as u16]));
            }
            if let Some(&concept) = self.random.pick(&holding) {
                self.file(Written::new(5, [concept]));
            }
        }
    }

    pub fn seal(&mut self) {
        if self.missing() {
            let early = self.random.one_of(&[7, 8, 9, 10]);
            let fields = [1, 0, 0, 0, 0, 0];
            let length = [6, 0, 2, 4][usize::from(early) - 7];
            self.file(Written::new(early, &fields[..length]));
        }
        self.file(Written::new(6, []));
    }

    // Evidence

    pub fn evidence(&mut self) {
        for _ in 0..self.plan.steps {
            let (lines, models) = (!self.lines.is_empty(), !self.models.is_empty());
            match self.random.below(100) {
                _ if models && self.random.percent(self.plan.about_models) => self.model_step(),
                0..70 => self.line_step(),
                70..85 if lines => self.empty_step(),
                85..92 => {
                    self.random_concept();
                }
                92..97 if self.plan.misses > 0 => self.late_step(),
                _ => self.line_step(),
            }
        }
    }

    /// Something that comes too late.
    fn late_step(&mut self) {
        let kind = self.random.one_of(&[1, 2, 5, 6]);
        let record = match kind {
            1 => Written::new(1, [0, 2]),
            2 => Written::new(2, [0]),
            5 => Written::new(5, [0]),
            _ => Written::new(6, []),
        };
        self.file(record);
    }

    fn a_line(&mut self) -> Option<u16> {
        match self.lines.len() {
            0 => None,
            // Early lines are small, late ones are new: some of each.
            count if self.random.percent(50) => Some(self.random.below(count) as u16),
            count => Some((count - 1 - self.random.below(count.min(6))) as u16),
        }
    }

    fn label_of(&self, line: u16) -> Members {
        self.lines[usize::from(line)].clone()
    }

    fn some_members(&mut self, most: usize) -> Members {
        let many = self.random.below(most + 1);
        (0..many).filter_map(|_| self.any_concept()).collect()
    }

    fn line_step(&mut self) {
        let rule = self.random.between(1, 10) as u16;
        if self.missing()
            && let Some(loose) = self.line(rule, true)
        {
            self.file(loose);
        }
        let Some(record) = self.line(rule, false) else {
            return;
        };
        if record.fields.len() > 6 + self.plan.label {
            return;
        }
        if self.missing() {
            let missed = self.missed_line(&record);
            self.file(missed);
        }
        self.file(record);
    }

    /// A line by this rule that the lines so far license: the cited labels less what the conclusion brings along. A loose
    /// one may have any role where the rule asks for a certain one.
    fn line(&mut self, rule: u16, loose: bool) -> Option<Written> {
        let mut label = self.some_members(3);
        let line = |leading: [u16; 6], label: Members| Some(Written::line(leading, label));
        match rule {
            1 => {
                let p = self.need(Concept::Bottom)?;
                label.insert(p);
                line([1, p, 0, 0, 0, 0], label)
            }
            2 => {
                let p = self.any_concept()?;
                let q = self.mate(p)?;
                label.extend([p, q]);
                line([2, p, q, 0, 0, 0], label)
            }
            3 | 4 => {
                let (m, n) = (self.a_line()?, self.a_line()?);
                let (one, other) = (self.label_of(m), self.label_of(n));
                let c = self.member_or_any(&one)?;
                let d = self.member_or_any(if rule == 3 { &one } else { &other })?;
                let p = self.need(if rule == 3 {
                    Concept::And(c, d)
                } else {
                    Concept::Or(c, d)
                })?;
                if rule == 3 {
                    label.extend(less(&one, &[c, d]));
                    label.insert(p);
                    line([3, p, 0, 0, m, 0], label)
                } else {
                    label.extend(less(&one, &[c]));
                    label.extend(less(&other, &[d]));
                    label.insert(p);
                    line([4, p, 0, 0, m, n], label)
                }
            }
            5 => {
                let m = self.a_line()?;
                let cited = self.label_of(m);
                let onlys: Vec<u16> = cited
                    .iter()
                    .copied()
                    .filter(|&c| matches!(self.docket.concepts().get(c), Concept::Only(..)))
                    .collect();
                let q = match self.random.pick(&onlys) {
                    Some(&q) => q,
                    None => {
                        let (role, part) = (self.role(), self.any_concept()?);
                        self.need(Concept::Only(role, part))?
                    }
                };
                let Concept::Only(lower, part) = self.docket.concepts().get(q) else {
                    return None;
                };
                let above: Vec<Role> = (0..128)
                    .filter_map(Role::new)
                    .filter(|&upper| self.docket.roles().is_below(lower, upper))
                    .collect();
                let upper = if loose { self.role() } else { self.random.one_of(&above) };
                let part = if loose && self.random.percent(40) {
                    self.any_concept()?
                } else {
                    part
                };
                let p = self.need(Concept::Only(upper, part))?;
                label.extend(less(&cited, &[q]));
                label.insert(p);
                line([5, p, q, 0, m, 0], label)
            }
            6 => {
                let m = self.a_line()?;
                let p = *self.random.pick(self.docket.concepts().axioms())?;
                label.extend(less(&self.label_of(m), &[p]));
                line([6, p, 0, 0, m, 0], label)
            }
            7..=9 => {
                let m = self.a_line()?;
                let one = self.label_of(m);
                let mut role = self.role();
                let p = if rule == 9 {
                    let transitive: Vec<Role> = (0..128)
                        .filter_map(Role::new)
                        .filter(|&role| self.docket.roles().is_transitive(role))
                        .collect();
                    if !loose {
                        role = *self.random.pick(&transitive)?;
                    }
                    let part = self.any_concept()?;
                    self.need(Concept::Only(role, part))?
                } else {
                    self.member_or_any(&one)?
                };
                let q = self.mate(p)?;
                let back = if loose && self.random.percent(50) {
                    self.role()
                } else {
                    role.inverse()
                };
                let s = match rule {
                    7 => 0,
                    8 => {
                        let part = if loose && self.random.percent(30) { p } else { q };
                        let inner = self.need(Concept::Exists(back, part))?;
                        self.need(Concept::Only(role, inner))?
                    }
                    _ => self.need(Concept::Only(back, q))?,
                };
                let n = match self.random.below(3) {
                    0 => self.a_line()?,
                    1 if rule != 7 => self.a_line_with(&[q, s])?,
                    _ => self.a_line_with(&[if rule == 7 { q } else { s }])?,
                };
                let other = self.label_of(n);
                label.extend(less(&one, &[p]));
                label.extend(if rule == 7 {
                    less(&other, &[q])
                } else {
                    less(&other, &[q, s])
                });
                line([rule, p, q, s, m, n], label)
            }
            _ => {
                let m = self.a_line()?;
                let cited = self.label_of(m);
                let role = self.role();
                let mut inner = None;
                for &member in &cited {
                    if self.docket.concepts().axiom_label().has(member) && self.random.percent(80) {
                        continue;
                    }
                    if let Concept::Only(upper, _) = self.docket.concepts().get(member) {
                        let roles = self.docket.roles();
                        let carried = roles.is_below(role, upper) && roles.is_transitive(upper);
                        if carried || loose && self.random.percent(60) {
                            label.insert(member);
                            continue;
                        }
                    }
                    if loose && self.random.percent(30) {
                        let upper = self.role();
                        label.insert(self.need(Concept::Only(upper, member))?);
                        continue;
                    }
                    if inner.is_none() && self.random.percent(50) {
                        inner = Some(member);
                    } else {
                        label.insert(self.need(Concept::Only(role, member))?);
                    }
                }
                let inner = match inner {
                    Some(inner) => inner,
                    None => self.any_concept()?,
                };
                let p = self.need(Concept::Exists(role, inner))?;
                label.insert(p);
                line([10, p, 0, 0, m, 0], label)
            }
        }
    }

    /// A line that has these members, now and then a new one: few lines have what a step brings along, unless they are
    /// made to.
    fn a_line_with(&mut self, wanted: &[u16]) -> Option<u16> {
        let having: Vec<usize> = (0..self.lines.len())
            .filter(|&line| wanted.iter().all(|member| self.lines[line].contains(member)))
            .collect();
        match self.random.pick(&having) {
            Some(&line) if self.random.percent(80) => Some(line as u16),
            _ if self.random.percent(60) => {
                let p = self.need(Concept::Bottom)?;
                let mut label = self.some_members(2);
                label.extend(wanted);
                label.insert(p);
                self.file(Written::line([1, p, 0, 0, 0, 0], label))
            }
            _ => self.a_line(),
        }
    }

    fn member_or_any(&mut self, label: &Members) -> Option<u16> {
        let members: Vec<u16> = label.iter().copied().collect();
        match self.random.pick(&members) {
            Some(&member) if self.random.percent(85) => Some(member),
            _ => self.any_concept(),
        }
    }

    fn missed_line(&mut self, line: &Written) -> Written {
        let mut missed = line.clone();
        let fields = &mut missed.fields;
        let (count, lines) = (self.docket.concepts().count(), self.lines.len());
        match self.random.below(16) {
            0 => fields[0] = self.random.below(12) as u16,
            1 => fields[1] = self.random.below(count + 1) as u16,
            2 => fields[2] = self.random.below(count + 1) as u16,
            3 => fields[3] = self.random.below(count + 1) as u16,
            4 => fields[4] = self.random.below(lines + 1) as u16,
            5 => fields[5] = self.random.below(lines + 1) as u16,
            6 => fields.swap(1, 2),
            7 => fields.swap(4, 5),
            // Without a principal.
            12 | 13 => {
                let principal = fields[self.random.one_of(&[1, 1, 2])];
                let members = fields.split_off(6);
                fields.extend(members.into_iter().filter(|&member| member != principal));
            }
            8 => fields.push(count as u16),
            9 => fields.push(self.random.below(count) as u16),
            _ if fields.len() == 6 => fields.push(0),
            10 => {
                let (a, b) = (
                    self.random.between(6, fields.len() - 1),
                    self.random.between(6, fields.len() - 1),
                );
                fields.swap(a, b);
            }
            11 => {
                let at = self.random.between(6, fields.len() - 1);
                fields.insert(at, fields[at]);
            }
            _ => {
                let at = self.random.between(6, fields.len() - 1);
                fields.remove(at);
            }
        }
        missed
    }

    fn open_claim(&mut self, label: Members) -> Option<u16> {
        if self.missing() {
            let mut members: Vec<u16> = label.iter().copied().collect();
            match self.random.below(4) {
                0 => members.push(self.count() as u16),
                1 => members.reverse(),
                2 => members.extend(members.last().copied()),
                _ => members.insert(0, 1),
            }
            self.file(Written::new(8, members));
        }
        let open = self
            .claims
            .iter()
            .position(|(members, open)| *open && *members == label);
        match open {
            Some(number) if self.random.percent(50) => Some(number as u16),
            _ => self.file(Written::new(8, label.into_iter().collect::<Vec<_>>())),
        }
    }

    fn empty_step(&mut self) {
        let Some(line) = self.a_line() else {
            return;
        };
        let mut label = self.label_of(line);
        label.append(&mut self.some_members(2));
        let Some(claim) = self.open_claim(label) else {
            return;
        };
        if self.random.percent(15) {
            return;
        }
        if self.missing() {
            let other = self.random.below(self.lines.len() + 1) as u16;
            let missed = match self.random.below(3) {
                0 => [self.random.below(self.claims.len() + 1) as u16, line],
                _ => [claim, other],
            };
            self.file(Written::new(9, missed));
        }
        self.file(Written::new(9, [claim, line]));
        if self.missing() {
            let other = self.random.below(self.lines.len() + 1) as u16;
            self.file(Written::new(9, [claim, other]));
        }
    }

    fn model_step(&mut self) {
        let Some(model) = self.random.pick(&self.models).cloned() else {
            return;
        };
        let rows = model.evaluate(self.docket.concepts().list());
        let point = self.random.below(model.size.into());
        let most = self.random.between(0, self.plan.label.min(12));
        let mut label = Members::new();
        for _ in 0..most {
            label.extend(self.any_concept().filter(|&concept| rows[usize::from(concept)][point]));
        }
        let Some(claim) = self.open_claim(label) else {
            return;
        };
        for _ in 0..3 {
            if self.missing() {
                let missed = self.missed_model(&model, claim, point as u16);
                self.file(missed);
            }
        }
        self.file(model.closing(claim, point as u16));
        if self.missing() {
            self.file(model.closing(claim, point as u16));
        }
    }

    /// A closing that is almost right. Some still are.
    fn missed_model(&mut self, model: &Interpretation, claim: u16, point: u16) -> Written {
        let mut near = model.clone();
        let marks: Vec<_> = near.marks.iter().copied().collect();
        let edges: Vec<_> = near.edges.iter().copied().collect();
        let way = self.random.below(18);
        match way {
            0..3 => {
                if let Some(edge) = self.random.pick(&edges) {
                    near.edges.remove(edge);
                }
            }
            3..5 => {
                if let Some(mark) = self.random.pick(&marks) {
                    near.marks.remove(mark);
                }
            }
            5 => {
                let (from, to) = (self.random.below(near.size.into()), self.random.below(near.size.into()));
                near.edges
                    .insert([self.random.one_of(&self.role_names), from as u16, to as u16]);
            }
            6 => {
                let element = self.random.below(near.size.into()) as u16;
                near.marks.insert([element, self.random.one_of(&self.names)]);
            }
            7 | 8 => return near.closing(claim, self.random.below(near.size.into()) as u16),
            9 => {
                near.size = self
                    .random
                    .one_of(&[0, 1, near.size.saturating_sub(1), near.size + 1, 255, 256, 257])
            }
            10 => {
                near.marks.clear();
            }
            11 => near.edges.clear(),
            _ => {}
        }
        let mut record = near.closing(claim, point);
        let fields = &mut record.fields;
        match way {
            12 => fields[0] = self.random.below(self.claims.len() + 1) as u16,
            13 => fields[1] = self.random.one_of(&[near.size, near.size - 1, 65535]),
            14 => fields[3] = (fields[3] + self.random.below(5) as u16).saturating_sub(2),
            15 => {
                fields.pop();
                if fields.len() < 4 {
                    fields.push(0);
                }
            }
            16 => fields.push(self.random.below(3) as u16),
            17 if fields.len() > 4 => {
                let at = self.random.between(4, fields.len() - 1);
                let value = self
                    .random
                    .one_of(&[0, 1, near.size, 63, 64, 1023, 1024, 65535, fields[at] + 1]);
                fields[at] = value;
            }
            _ => {}
        }
        record
    }
}

fn less(label: &Members, without: &[u16]) -> Members {
    label
        .iter()
        .copied()
        .filter(|member| !without.contains(member))
        .collect()
}

pub fn concept_record(concept: Concept) -> Written {
    Written::new(
        3,
        match concept {
            Concept::Top => [0, 0, 0],
            Concept::Bottom => [1, 0, 0],
            Concept::Name(name) => [2, name, 0],
            Concept::NotName(name) => [3, name, 0],
            Concept::And(a, b) => [4, a, b],
            Concept::Or(a, b) => [5, a, b],
            Concept::Only(role, part) => [6, role.number() as u16, part],
            Concept::Exists(role, part) => [7, role.number() as u16, part],
        },
    )
}
