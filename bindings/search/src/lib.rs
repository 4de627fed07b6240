//! The eight searches by number and name, and the grids, numbers and flags that each takes, in document 01's words. It
//! links nothing, so that the oracle can have it before the library's archive is there.

/// Nodata in a grid of bytes; in a grid of floats it is NaN.
pub const BYTE_NODATA: u8 = 255;

/// An enum that says of each variant its name: with it come `ALL` of them, in this order, and `name`.
macro_rules! named {
    ($(#[$doc:meta])* $of:ident { $($variant:ident = $name:literal,)+ }) => {
        $(#[$doc])*
        #[derive(Clone, Copy, Debug, PartialEq, Eq)]
        pub enum $of {
            $($variant,)+
        }

        impl $of {
            pub const ALL: [$of; [$($name),+].len()] = [$($of::$variant),+];

            pub fn name(self) -> &'static str {
                match self {
                    $($of::$variant => $name,)+
                }
            }
        }
    };
}

named! {
    /// What a grid is for. The name stands in sentences, and is the option of `sheet` that names the grid's file.
    Role {
        Targets = "targets",
        Mask = "mask",
        Obstacles = "obstacles",
        Times = "times",
        Values = "values",
        Amounts = "amounts",
    }
}

impl Role {
    /// Whether its cells are bytes; else they are floats.
    pub fn is_bytes(self) -> bool {
        matches!(self, Role::Targets | Role::Mask | Role::Obstacles)
    }
}

named! {
    /// The eight searches, in document 01's order.
    Search {
        DistancesUpTo = "distances_up_to",
        DistanceWithObstacles = "distance_with_obstacles",
        TravelDistancesUpTo = "travel_distances_up_to",
        ValueAtClosestTarget = "value_at_closest_target",
        ValueAtClosestTravelTarget = "value_at_closest_travel_target",
        ValueAtClosestLessThanTravelTarget = "value_at_closest_less_than_travel_target",
        SumWithinTravelDistance = "sum_within_travel_distance",
        SumTargetsWithinTravelDistance = "sum_targets_within_travel_distance",
    }
}

use Search::*;

impl Search {
    pub fn from_number(number: u8) -> Option<Search> {
        Search::ALL.into_iter().find(|search| search.number() == number)
    }

    pub fn number(self) -> u8 {
        self as u8 + 1
    }

    /// The grids that it takes, in the order of the grid file's tags.
    pub fn roles(self) -> &'static [Role] {
        match self {
            DistancesUpTo => &[Role::Targets],
            DistanceWithObstacles => &[Role::Targets, Role::Obstacles],
            TravelDistancesUpTo => &[Role::Targets, Role::Times],
            ValueAtClosestTarget => &[Role::Targets, Role::Values],
            ValueAtClosestTravelTarget | ValueAtClosestLessThanTravelTarget => {
                &[Role::Targets, Role::Times, Role::Values]
            }
            SumWithinTravelDistance => &[Role::Mask, Role::Times, Role::Values],
            SumTargetsWithinTravelDistance => &[Role::Times, Role::Amounts],
        }
    }

    fn has(self, role: Role) -> bool {
        self.roles().contains(&role)
    }

    /// Targets, or the mask of search 7.
    pub fn has_targets(self) -> bool {
        self.has(Role::Targets) || self.has(Role::Mask)
    }

    pub fn has_obstacles(self) -> bool {
        self.has(Role::Obstacles)
    }

    pub fn has_times(self) -> bool {
        self.has(Role::Times)
    }

    /// Values, or the amounts of search 8.
    pub fn has_values(self) -> bool {
        self.has(Role::Values) || self.has(Role::Amounts)
    }

    pub fn has_cell_size(self) -> bool {
        matches!(self, DistancesUpTo | DistanceWithObstacles)
    }

    pub fn has_limit(self) -> bool {
        !matches!(self, DistanceWithObstacles | ValueAtClosestTarget | ValueAtClosestTravelTarget)
    }

    /// Searches 7 and 8, whose limit is a budget.
    pub fn has_budget(self) -> bool {
        matches!(self, SumWithinTravelDistance | SumTargetsWithinTravelDistance)
    }

    pub fn has_diagonals(self) -> bool {
        self == DistanceWithObstacles
    }

    pub fn has_adjacent(self) -> bool {
        self == SumWithinTravelDistance
    }

    /// Searches 5 and 6, in which a target byte of 255 starts.
    pub fn starts_at_nodata(self) -> bool {
        matches!(self, ValueAtClosestTravelTarget | ValueAtClosestLessThanTravelTarget)
    }

    /// Whether a cell with this target or mask byte starts.
    pub fn starts_at(self, byte: u8) -> bool {
        byte != 0 && (byte != BYTE_NODATA || self.starts_at_nodata())
    }
}
