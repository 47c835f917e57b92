//! The closing in plain Rust: a relation is 64 rows of 64 bits.
use crate::vocabulary::{Axiom, Kind};

pub type Table = [u64; 64];

const NONE: Table = [0; 64];

pub struct Relations {
    pub csub: Table,
    pub psub: Table,
    pub cdis: Table,
    pub pdis: Table,
    pub dom: Table,
    pub ran: Table,
    pub psubinv: Table,
    pub pdisinv: Table,
}

fn holds(row: u64, name: usize) -> bool {
    row >> name & 1 == 1
}

fn mark(table: &mut Table, left: usize, right: usize) {
    table[left] |= 1 << right;
}

/// The names in a row, rising.
fn names(mut row: u64) -> impl Iterator<Item = usize> {
    std::iter::from_fn(move || {
        if row == 0 {
            return None;
        }
        let name = row.trailing_zeros() as usize;
        row &= row - 1;
        Some(name)
    })
}

/// The rows of `table` that a row names, all in one.
fn union(row: u64, table: &Table) -> u64 {
    names(row).fold(0, |all, name| all | table[name])
}

/// Adds to `into` the pairs by way of a pair of `left` and then one of `right`.
fn add_product(into: &mut Table, left: &Table, right: &Table) {
    for (row, &by) in into.iter_mut().zip(left) {
        *row |= union(by, right);
    }
}

fn product(left: &Table, right: &Table) -> Table {
    let mut table = NONE;
    add_product(&mut table, left, right);
    table
}

fn turned(table: &Table) -> Table {
    let mut turned = NONE;
    for (left, &row) in table.iter().enumerate() {
        for right in names(row) {
            mark(&mut turned, right, left);
        }
    }
    turned
}

/// Adds to a table each of its pairs the other way round.
fn mirror(table: &mut Table) {
    let turned = turned(table);
    for (row, more) in table.iter_mut().zip(turned) {
        *row |= more;
    }
}

/// Adds each chain of pairs, one middle name at a time.
fn close(table: &mut Table, count: usize) {
    for middle in 0..count {
        let through = table[middle];
        for row in &mut table[..count] {
            if holds(*row, middle) {
                *row |= through;
            }
        }
    }
}

/// The same for pairs that stand as they are, and pairs that reverse. Two reversals cancel.
fn close_signed(plain: &mut Table, reverse: &mut Table, count: usize) {
    for middle in 0..count {
        if holds(reverse[middle], middle) {
            // The middle name reverses into itself, so that it has each pair both ways.
            let both = plain[middle] | reverse[middle];
            plain[middle] = both;
            reverse[middle] = both;
        }
        let (ahead, back) = (plain[middle], reverse[middle]);
        for left in 0..count {
            let (along, against) = (holds(plain[left], middle), holds(reverse[left], middle));
            if along {
                plain[left] |= ahead;
                reverse[left] |= back;
            }
            if against {
                plain[left] |= back;
                reverse[left] |= ahead;
            }
        }
    }
}

/// Marks each property with two disjoint classes in its row of `ends`.
fn mark_clashes(pdis: &mut Table, ends: &Table, cdis: &Table) {
    for (property, &row) in ends.iter().enumerate() {
        if union(row, cdis) & row != 0 {
            mark(pdis, property, property);
        }
    }
}

fn diagonal(table: &Table) -> u32 {
    (0..64).filter(|&name| holds(table[name], name)).count() as u32
}

impl Relations {
    /// What the axioms state, disjointness both ways, and each name below itself.
    fn stated(axioms: &[Axiom], classes: usize, properties: usize) -> Relations {
        let mut all = Relations {
            csub: NONE,
            psub: NONE,
            cdis: NONE,
            pdis: NONE,
            dom: NONE,
            ran: NONE,
            psubinv: NONE,
            pdisinv: NONE,
        };
        for axiom in axioms {
            let table = match axiom.kind {
                Kind::Csub => &mut all.csub,
                Kind::Psub => &mut all.psub,
                Kind::Cdis => &mut all.cdis,
                Kind::Pdis => &mut all.pdis,
                Kind::Dom => &mut all.dom,
                Kind::Ran => &mut all.ran,
                Kind::Psubinv => &mut all.psubinv,
                Kind::Pdisinv => &mut all.pdisinv,
            };
            mark(table, axiom.left as usize, axiom.right as usize);
        }
        for table in [&mut all.cdis, &mut all.pdis, &mut all.pdisinv] {
            mirror(table);
        }
        (0..classes).for_each(|class| mark(&mut all.csub, class, class));
        (0..properties).for_each(|property| mark(&mut all.psub, property, property));
        all
    }

    /// The dom and ran of the names above, and of their superclasses.
    fn close_ends(&mut self) {
        let mut dom = product(&self.psub, &self.dom);
        add_product(&mut dom, &self.psubinv, &self.ran);
        let mut ran = product(&self.psub, &self.ran);
        add_product(&mut ran, &self.psubinv, &self.dom);
        self.dom = product(&dom, &self.csub);
        self.ran = product(&ran, &self.csub);
    }

    fn close_cdis(&mut self) {
        let half = product(&self.csub, &self.cdis);
        self.cdis = product(&self.csub, &turned(&half));
    }

    /// Two disjointnesses, plain and of reversed pairs, taken down on the left to the names below.
    fn lowered(&self, plain: &Table, reverse: &Table) -> (Table, Table) {
        let mut pdis = product(&self.psub, plain);
        add_product(&mut pdis, &self.psubinv, reverse);
        let mut pdisinv = product(&self.psub, reverse);
        add_product(&mut pdisinv, &self.psubinv, plain);
        (pdis, pdisinv)
    }

    fn close_pdis(&mut self) {
        mark_clashes(&mut self.pdis, &self.dom, &self.cdis);
        mark_clashes(&mut self.pdis, &self.ran, &self.cdis);
        let (plain, reverse) = self.lowered(&self.pdis, &self.pdisinv);
        (self.pdis, self.pdisinv) = self.lowered(&turned(&plain), &turned(&reverse));
    }

    pub fn close(axioms: &[Axiom], classes: usize, properties: usize) -> Relations {
        let mut all = Relations::stated(axioms, classes, properties);
        close(&mut all.csub, classes);
        close_signed(&mut all.psub, &mut all.psubinv, properties);
        all.close_ends();
        all.close_cdis();
        all.close_pdis();
        all
    }

    pub fn empty_names(&self) -> u32 {
        diagonal(&self.cdis) + diagonal(&self.pdis)
    }

    /// A number that depends on each cell, as `close_digest` gives it.
    pub fn digest(&self) -> u32 {
        let tables = [
            &self.csub,
            &self.psub,
            &self.cdis,
            &self.pdis,
            &self.dom,
            &self.ran,
            &self.psubinv,
            &self.pdisinv,
        ];
        let cells = tables
            .into_iter()
            .flatten()
            .flat_map(|&row| (0..64).map(move |name| holds(row, name)));
        cells.fold(0, |digest: u32, cell| {
            digest.wrapping_mul(31).wrapping_add(u32::from(cell))
        })
    }
}
