//! What the lists of each sort are like.

use abr::CONNECTIONS_MAX;

/// The connections that may be open at once.
const CAPACITY: u32 = CONNECTIONS_MAX as u32;

/// What the lists of one sort are like.
#[derive(Debug, Clone, Copy)]
pub struct Profile {
    /// Its name.
    pub name: &'static str,
    /// How many addresses the list uses.
    pub addresses: u32,
    /// How many of them it opens before all else.
    pub filled: u32,
    /// How many paths it uses, and how many pairs as their members.
    pub paths: u32,
    pub members: u32,
    /// How many of these it adds before all else, the paths being opened.
    pub joined: u32,
    /// The least exponent of a rate code.
    pub exponent: u32,
    /// One contract in so many has no minimum; none if it is 0.
    pub no_minimum: u64,
    /// How long before 2^62 the list starts, if it does.
    pub before_end: Option<u64>,
    /// One argument in so many is out of its range or unknown.
    pub fault: u64,
    /// Slots are so far apart that every connection is due again.
    pub spaced: bool,
    /// Slots are passed the time that the library gives for the drawn one.
    pub paced: bool,
    /// How often each sort of call is made, in the order of the sorts.
    pub weights: [u64; 24],
}

/// Weights in the order of the sorts: of the calls on connections, of those on paths and
/// members, and of all others.
pub const fn weights(connections: [u64; 8], paths: [u64; 4], others: [u64; 12]) -> [u64; 24] {
    let mut all = [0; 24];
    let mut place = 0;
    while place < all.len() {
        all[place] = match place {
            0..8 => connections[place],
            8..12 => paths[place - 8],
            _ => others[place - 12],
        };
        place += 1;
    }
    all
}

/// No call of these sorts.
pub const NO_PATHS: [u64; 4] = [0; 4];
pub const NO_OTHERS: [u64; 12] = [0; 12];

const USUAL: [u64; 24] = weights(
    [4, 1, 24, 8, 2, 52, 4, 4],
    NO_PATHS,
    [2, 1, 2, 2, 1, 1, 2, 1, 2, 2, 1, 1],
);

/// The profiles of the differential lists.
pub const PROFILES: [Profile; 10] = [
    Profile::usual("one", 1, 8),
    Profile::usual("few", 3, 12),
    Profile {
        weights: weights([12, 3, 24, 14, 2, 40, 4, 4], NO_PATHS, [1; 12]),
        ..Profile::usual("many", 80, 16)
    },
    Profile {
        weights: weights([20, 2, 10, 20, 1, 30, 4, 4], [6, 2, 3, 1], [1; 12]),
        filled: CAPACITY - 8,
        paths: 24,
        members: 24,
        ..Profile::usual("full", CAPACITY + 16, 0)
    },
    Profile::usual("ties", 6, 29),
    Profile {
        before_end: Some(60_000_000),
        ..Profile::usual("late", 3, 14)
    },
    Profile {
        fault: 3,
        weights: weights(
            [10, 2, 30, 10, 4, 30, 4, 4],
            [4, 10, 12, 2],
            [4, 4, 12, 12, 4, 4, 4, 4, 8, 8, 4, 1],
        ),
        paths: 2,
        members: 4,
        ..Profile::usual("faulty", 4, 10)
    },
    Profile {
        weights: weights([3, 1, 26, 4, 2, 52, 3, 3], [3, 8, 16, 3], [1; 12]),
        paths: 2,
        members: 8,
        ..Profile::usual("paths", 3, 14)
    },
    Profile {
        weights: weights([2, 1, 20, 3, 2, 52, 2, 2], [2, 14, 20, 3], [1; 12]),
        paths: 4,
        members: 320,
        joined: 252,
        fault: 16,
        ..Profile::usual("members", 3, 18)
    },
    Profile {
        weights: weights([3, 1, 20, 10, 2, 56, 2, 2], [1, 3, 6, 1], [1; 12]),
        paths: 1,
        members: 3,
        paced: true,
        ..Profile::usual("paced", 5, 16)
    },
];

/// The profile of the pairs: both lists' slots go to the same connections for
/// long, since all have a minimum and are due in every slot.
pub const SPACED: Profile = Profile {
    spaced: true,
    no_minimum: 0,
    weights: weights([2, 0, 40, 8, 2, 46, 4, 4], [1, 2, 6, 1], NO_OTHERS),
    paths: 1,
    members: 4,
    ..Profile::usual("spaced", 3, 20)
};

/// The profile of pairs without a minimum. Slots are rare, since one goes to
/// different connections as soon as a rate is 0 in one list only.
pub const NO_MINIMUM: Profile = Profile {
    spaced: true,
    no_minimum: 1,
    weights: weights([4, 0, 60, 4, 1, 1, 2, 8], [1, 1, 2, 0], NO_OTHERS),
    paths: 1,
    members: 4,
    ..Profile::usual("no minimum", 3, 20)
};

impl Profile {
    /// How many lists of this profile are made where so many are made of others:
    /// fewer the more connections are open, since the reference looks at all of them in
    /// each slot.
    pub fn share(self, lists: u64) -> u64 {
        lists / u64::from(self.filled / 40).max(1)
    }

    /// The opens and adds that a list of this profile begins with.
    pub fn first(self) -> u64 {
        let paths = if self.joined == 0 { 0 } else { self.paths };
        u64::from(self.filled + paths + self.joined)
    }

    const fn usual(name: &'static str, addresses: u32, exponent: u32) -> Self {
        Profile {
            name,
            addresses,
            filled: 0,
            paths: 0,
            members: 0,
            joined: 0,
            exponent,
            no_minimum: 3,
            before_end: None,
            fault: 40,
            spaced: false,
            paced: false,
            weights: USUAL,
        }
    }
}
