//! Vocabularies as a program may have learned them: layered hierarchies with many redundant axioms, and a few mistakes.

pub const CLASSES: usize = 64;
pub const PROPERTIES: usize = 64;
const AXIOMS: usize = 1_024;

/// A name's tree is what it leaves on division by this. Property tree 0 leads from class tree 0 to class tree 1 and
/// property tree 1 back, and so do 2 and 3.
const TREES: u64 = 4;

/// Names of one tree in a layer. Layer 0 is the top.
const WIDTH: u64 = 2;
const LAYERS: u64 = 64 / (TREES * WIDTH);

/// How many axioms put a name of the lowest layer into a second tree.
const MISTAKES: usize = 3;

/// The numbers are the codes of the kinds.
#[derive(Clone, Copy)]
pub enum Kind {
    Csub = 1,
    Psub = 2,
    Cdis = 3,
    Pdis = 4,
    Dom = 5,
    Ran = 6,
    Psubinv = 7,
    Pdisinv = 8,
}

/// How many of each 64 axioms are of a kind.
const SHARES: [(Kind, u64); 8] = [
    (Kind::Csub, 21),
    (Kind::Psub, 16),
    (Kind::Dom, 8),
    (Kind::Ran, 8),
    (Kind::Psubinv, 7),
    (Kind::Cdis, 2),
    (Kind::Pdis, 1),
    (Kind::Pdisinv, 1),
];

#[derive(Clone, Copy)]
pub struct Axiom {
    pub kind: Kind,
    pub left: u8,
    pub right: u8,
}

/// A linear congruential generator.
struct Random {
    state: u64,
}

impl Random {
    fn below(&mut self, bound: u64) -> u64 {
        self.state = self
            .state
            .wrapping_mul(6_364_136_223_846_793_005)
            .wrapping_add(1_442_695_040_888_963_407);
        (self.state >> 33) % bound
    }

    fn kind(&mut self) -> Kind {
        let mut drawn = self.below(64);
        for (kind, share) in SHARES {
            if drawn < share {
                return kind;
            }
            drawn -= share;
        }
        Kind::Csub
    }

    fn name(&mut self, layer: u64, tree: u64) -> u8 {
        let place = layer * WIDTH + self.below(WIDTH);
        (place * TREES + tree) as u8
    }

    /// A layer above: half the time the next one, else any, which is a shortcut.
    fn layer_above(&mut self, layer: u64) -> u64 {
        if self.below(2) == 0 {
            layer - 1
        } else {
            self.below(layer)
        }
    }

    /// Two names of which the right one stands in a layer above.
    fn rising(&mut self, kind: Kind, tree: u64, above: u64) -> Axiom {
        let lower = 1 + self.below(LAYERS - 1);
        let upper = self.layer_above(lower);
        Axiom {
            kind,
            left: self.name(lower, tree),
            right: self.name(upper, above),
        }
    }

    /// Two names of which the left one stands in any layer, and the right one in one of the topmost.
    fn across(&mut self, kind: Kind, tree: u64, other: u64, topmost: u64) -> Axiom {
        let (left, right) = (self.below(LAYERS), self.below(topmost));
        Axiom {
            kind,
            left: self.name(left, tree),
            right: self.name(right, other),
        }
    }

    fn axiom(&mut self) -> Axiom {
        let kind = self.kind();
        let tree = self.below(TREES);
        let back = tree ^ 1;
        let apart = tree ^ 2;
        match kind {
            Kind::Csub | Kind::Psub => self.rising(kind, tree, tree),
            Kind::Psubinv => self.rising(kind, tree, back),
            Kind::Dom => self.across(kind, tree, tree, LAYERS - 1),
            Kind::Ran => self.across(kind, tree, back, LAYERS - 1),
            Kind::Cdis | Kind::Pdis | Kind::Pdisinv => self.across(kind, tree, apart, LAYERS),
        }
    }

    fn mistake(&mut self, kind: Kind) -> Axiom {
        let tree = self.below(TREES);
        Axiom {
            kind,
            left: self.name(LAYERS - 1, tree),
            right: self.name(0, tree ^ 2),
        }
    }
}

pub fn generated(seed: u64) -> Vec<Axiom> {
    let mut random = Random { state: seed };
    let mut axioms: Vec<Axiom> = (MISTAKES..AXIOMS).map(|_| random.axiom()).collect();
    let kinds = [Kind::Csub, Kind::Psub, Kind::Dom];
    axioms.extend(kinds.map(|kind| random.mistake(kind)));
    axioms
}
