//! Candidates as a list of links, and all their paths one after the other.
ghost use Rattle.std.specs.Prelude.{◌≡◌, ◌×◌, ◌⊎◌, List, [], ◌∷◌, ◌++◌, Any};

use path_search::Candidates;

/// Candidates with their links. The certificate to be validated has the number `target`, and the anchor `target + 1`.
#[derive(Clone, Copy, Drop)]
pub struct Links<'a> {
    /// Pairs of an issuer and a subject.
    pub links: &'a [(usize, usize)],
    /// The number of the certificate to be validated, which is the number of candidates.
    pub target: usize,
    /// A link that the caller has found to be wrong.
    pub wrong: (usize, usize),
}

impl Links<'_> {
    /// Whether the first issues the second.
    pub fn has(&self, issuer: usize, subject: usize) -> bool {
        (issuer, subject) != self.wrong && self.links.iter().any(|link| *link == (issuer, subject))
    }

    /// The last certificate of a chain.
    pub fn last(&self, chain: &[usize]) -> usize {
        match chain {
            [.., last] => *last,
            [] => self.target,
        }
    }
}

impl Candidates for Links<'_> {
    ghost follows = { λ g chain c. Any (λ l. (l.0 ≡ c) × (((chain ≡ []) × (l.1 ≡ g.target)) ⊎ ((before : List _) × (chain ≡ before ++ l.1 ∷ [])))) g.links.now };
    ghost is_whole = { λ g chain. Any (λ l. (l.0 ≡ g.target + 1) × (((chain ≡ []) × (l.1 ≡ g.target)) ⊎ ((before : List _) × (chain ≡ before ++ l.1 ∷ [])))) g.links.now };

    fn may_follow(&self, chain: &[usize], candidate: usize) -> bool {
        self.has(candidate, self.last(chain))
    }

    fn is_whole(&self, chain: &[usize]) -> bool {
        self.has(self.target + 1, self.last(chain))
    }
}

/// All lists of candidates up to a length, shorter ones first, as the digits of numbers.
#[derive(Clone, Copy, Drop)]
pub struct Lists {
    pub count: usize,
    pub length: usize,
    pub code: usize,
}

impl Lists {
    /// Writes the digits of the next list, and returns its length.
    pub fn next(&mut self, list: &mut [usize; 4]) -> usize {
        let length = self.length;
        let mut rest = self.code;
        for at in 0..length {
            list[length - 1 - at] = rest % self.count;
            rest /= self.count;
        }
        self.code += 1;
        let mut all = 1;
        for _ in 0..length {
            all *= self.count;
        }
        if self.code == all {
            self.length += 1;
            self.code = 0;
        }
        length
    }
}

/// Whether a list has no candidate twice, and each issues the one before it, and the anchor the last.
pub fn is_path(links: &Links<'_>, list: &[usize]) -> bool {
    let mut last = links.target;
    for (at, one) in list.iter().enumerate() {
        if !links.has(*one, last) || list[..at].iter().any(|other| other == one) {
            return false;
        }
        last = *one;
    }
    links.has(links.target + 1, last)
}
